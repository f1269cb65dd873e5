"""Cases for document 02's §6: the look, the acknowledge, and the read that is made of both."""
import themes
import voices
from chips import KINDS, KS, OTHER_KS, at_boundary, external, fifo, in_mode, silent
from images import STOP, pack, repeat, unvoiced, voiced
from pick import Pick
from script import *
from states import EXTERNAL, IDLE, LAST_POSITION, ROM, TMS5220C, WAITING, held

# the fields of both devices
DEVICES = [{}, {'device': TMS5220C, 'v': 1, 'rr': 2}]


def both():
    """Look, acknowledge and look again: what the bus would get, and what it would get next."""
    return look() + acknowledge() + look()


# Each mode of both devices, with the interrupt and without it; in idle with data pending. An acknowledge of data leaves the
# interrupt, the next one clears it, and so do reads. Two looks are one.
def looks_at_modes():
    out = image(b'\x5a') + voice(voices.soft(2))
    for device in DEVICES:
        for data in (0x5A, 0x00):
            out += in_mode(IDLE, pending=1, data=data, interrupt=1, nibble=3, **device) + look(2) + both() + both() + both()
        out += silent(pending=1, data=0x60, position=5, interrupt=1, **device) + (look() + read()) * 2 + look()
        for mode in (ROM, WAITING, EXTERNAL):
            out += in_mode(mode, interrupt=1, nibble=2, **device) + look(2) + both() + both()
    return out


# States with a field out of range, each with data and the interrupt where it can have them: refused, and handed back. A state
# whose only fault is in what a look does not need is refused too.
def looks_at_broken_states():
    out = image(b'\x5a') + voice(voices.soft(2))
    rest = {'pending': 1, 'data': 0xA5, 'interrupt': 1}
    for device in DEVICES:
        for fields in ({'nibble': 5}, {'position': LAST_POSITION + 1}, {'used': 1}, {'memory 10': 8192}):
            out += in_mode(IDLE, **rest, **fields, **device) + look() + acknowledge(2) + look() + read() + step()
    out += silent(sample=1, **rest) + both() + read() + silent(data=0xA5, interrupt=1) + both() + read()
    for mode in (ROM, WAITING, EXTERNAL):
        out += in_mode(mode, **rest) + both() + read()
    for v, rr in ((2, 0), (1, 4)):
        out += silent(device=TMS5220C, v=v, rr=rr, **rest) + both() + read() + write(RESET) + look()
    # a state that is taken again, right after refused ones
    return out + external(17, interrupt=1) + both() + external(16, interrupt=1) + look() + both()


# Image and voice file are no matter: none at all, and bad ones.
def looks_without_image():
    out = image(b'\xff\x0f') + voice(voices.soft(2)) + power_up() + write(READ_BYTE)
    out += image(b'') + voice(b'') + look() + write(READ_BYTE) + step() + both() + read()
    out += power_up_c() + both() + in_mode(ROM, interrupt=1) + look() + both()
    return out + image(b'\xff') + both() + step() + look()


# Looks and acknowledges between Read Byte and the read of its byte; between the loads of an address; between commands.
def looks_around_reads():
    out = image(bytes([0x9C, 0x00, 0x35, 0xE1, 0x7A, 0xFF] * 4))
    for up in (power_up(), power_up_c()):
        out += up + write(READ_BYTE) + look(2) + read() + look() + read()
        # the byte 00 is pending too
        out += write(READ_BYTE) + look(2) + acknowledge() + look() + read()
        out += write(READ_BYTE) + look() + write(READ_BYTE) + look() + acknowledge(2) + look() + write(READ_BYTE) + read()
        # a refused byte and one that does nothing: the first keeps the data, the second does not
        out += load_address(23) + write(READ_BYTE) + look() + write(READ_BYTE) + look() + write(NOTHING) + look() + both()
        for nibble in (4, 0, 0):
            out += write(load(nibble)) + look() + acknowledge() + read()
        out += write(READ_BYTE) + look() + write(SPEAK) + look() + both() + write(RESET) + look()
        # behind a branch a byte has to wait; the look does not
        out += write(READ_AND_BRANCH) + both() + write(READ_BYTE) + look()
    return out


# Speech from ROM: TS stands, and falls at the stop with an interrupt. Looks leave it, through steps too; an acknowledge ends
# it.
def looks_in_rom_speech():
    text = repeat(6, 12) + STOP
    out = image(pack(text)) + voice(voices.soft(5))
    for up in (power_up(), power_up_c() + write(frame_rate(0, 3))):
        out += up + write(SPEAK) + look() + step() + look() + acknowledge() + run(198) + look() + write(NOTHING) + look()
        out += run(1) + look(2) + step() + look() + run(60) + look() + both() + step() + both() + run(200) + look()
    # out of ROM: look, then read; look, then Speak, which keeps the interrupt
    out += image(b'\x08') + power_up() + write(SPEAK) + step() + look() + read() + look()
    out += image(b'\x00') + at_boundary(ROM, position=8) + step() + look()
    return out + write(load(0), SPEAK) + both()


# "After Speak External status is 60, after one byte 40, after eight 40, after nine 80", told by looks. Then BL rises with an
# interrupt, which looks leave, and TS falls with another.
def looks_in_external_speech():
    speech = pack(voiced(9, 20, KS) + unvoiced(7, OTHER_KS[:4]) + STOP, '1')
    out = image(b'\xff') + voice(voices.soft(5))
    for up in (power_up(), power_up_c() + write(frame_rate(0, 2))):
        out += up + write(SPEAK_EXTERNAL) + look()
        for byte in speech[:9]:
            out += write(byte) + look()
        # seven bytes leave with the first frame: BL rises
        out += acknowledge() + step() + look(2) + run(20) + look() + write(*speech[9:]) + look() + both() + run(179) + both()
        out += step() + look() + run(199) + look() + step() + look() + run(150) + look() + both()
    return out


# BL and BE rising and TS falling in one step, with the interrupt set or clear before it: look, look, read, or acknowledge.
def looks_at_interrupts():
    out = image(b'\x00') + voice(voices.soft(5))
    silence, whole = b'\x00', pack(KINDS[0])
    for data, used, before in ((silence * 9, 4, 0), (silence * 9, 0, 0), (whole + silence * 8, 0, 1), (silence, 4, 0),
                               (b'\xff' * 3, 7, 1), (b'\x0f', 4, 0)):
        out += fifo(data, used, interrupt=before) + look() + step() + look(2) + step() + look() + both()
    # a waiting chip: nothing rises, and what was set stays through steps and looks
    out += silent(mode=WAITING, interrupt=1, **held(8)) + look() + step() + look() + write(1)
    return out + look() + both() + step() + look()


# The random themes, each once.
def some_of_each_look_theme():
    return b''.join(theme(Pick(60220 + at)) for at, theme in enumerate(themes.OF_LOOKS))


LOOK_TOPICS = [looks_at_modes, looks_at_broken_states, looks_without_image, looks_around_reads, looks_in_rom_speech,
               looks_in_external_speech, looks_at_interrupts, some_of_each_look_theme]
