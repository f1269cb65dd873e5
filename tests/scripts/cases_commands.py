"""Cases for document 01's "Commands, FIFO, status"."""
import voices
from chips import KINDS, KS, OTHER_KS, external, fifo, in_mode, silent
from images import SILENCE, STOP, pack, repeat, unvoiced, voiced
from script import *
from states import FIFO, IDLE, ROM, TMS5220C, WAITING, held


# Each code in each mode, with both top bits. In ROM speech all but the last, Reset, have to wait; in the external modes all go
# to the FIFO, up to the eighth byte in waiting and to the sixteenth in speech.
def every_command():
    out = image(bytes(range(60, 100))) + voice(voices.soft(5))
    data = [command | (0x82 if command & 0x10 else 0x05) for command in COMMANDS]
    rest = {'position': 41, 'nibble': 2, 'interrupt': 1}
    for byte in data:
        out += in_mode(IDLE, **rest) + write(byte)
    out += in_mode(ROM, **rest) + write(*data)
    out += in_mode(WAITING, **{**dict.fromkeys(FIFO, 0), 'level': 0, **rest}) + write(*data)
    out += external(8, **rest) + write(*data)
    return out + in_mode(IDLE, pending=1, data=9) + write(SPEAK_EXTERNAL) + step() + write(RESET) + read()


# The status at each FIFO level: from waiting up to external speech with 16 bytes, and down again by two silences a byte, of 50
# samples each, which only a TMS5220C has; at some levels set, with the interrupt before it.
def statuses():
    out = image(b'\x00') + voice(voices.soft(2)) + silent(mode=WAITING, interrupt=1) + read()
    for byte in range(1, 17):
        out += write(byte) + read()
    out += fifo(bytes(16), 4, device=TMS5220C, rr=3) + (step() + read() + run(99)) * 16
    for level in (1, 8, 9, 16):
        out += external(level, interrupt=level & 1) + read()
    out += silent(mode=WAITING, interrupt=1, **held(8)) + read()
    for mode in (IDLE, ROM):
        out += in_mode(mode, interrupt=1) + read(2)
    return out


# The ninth byte starts the sound from rest, also while the frame of a stop still sounds; the tenth starts nothing, nor does a
# byte that is the ninth held in external speech.
def ninth_byte():
    speech = pack(voiced(9, 20, KS) + unvoiced(7, OTHER_KS[:4]) + STOP)
    out = image(b'\xff') + voice(voices.soft()) + power_up() + write(load(1), SPEAK_EXTERNAL, *speech[:8]) + step() + run(3)
    out += write(speech[8]) + read() + step(2) + write(*speech[9:]) + read()
    out += run(199) + step() + run(199) + step() + write(SPEAK_EXTERNAL) + run(5) + read()
    out += write(*speech[:8]) + step(2) + write(speech[8]) + step(2) + read()
    return out + external(8) + write(0x55, 0xAA) + read()


# FIFO frames that end one bit after the last held one, with it, and before it; what the interrupt then is.
def fifo_ends():
    out = image(b'\x00') + voice(voices.soft())
    for frame in KINDS:
        for text in (frame[:-1], frame, frame + '1'):
            used = -len(text) % 8
            out += fifo(pack('1' * used + text), used) + step(2)
    return out


# BL and BE rising, TS falling, one at a time and together, with the interrupt set or clear before.
def interrupts():
    out = image(b'\x00') + voice(voices.soft())
    silence, whole = b'\x00', pack(KINDS[0])
    for data, used in ((silence * 10, 0), (silence * 10, 4), (silence * 9, 0), (silence * 9, 4), (silence * 9, 1),
                       (silence * 8, 4), (whole + silence * 8, 0), (whole + silence * 3, 0), (b'\xff' * 12, 0),
                       (b'\xff' * 3, 7), (silence, 4), (b'\xff', 4), (b'\x0f', 4)):
        for before in (0, 1):
            out += fifo(data, used, interrupt=before) + step() + read()
    # a waiting chip and one that is idle keep the interrupt as it was; one that runs out of ROM does not
    for mode in (IDLE, ROM, WAITING):
        out += in_mode(mode, sample=24, interval=7) + step(2)
    return out


# External speech fed too fast, then too slow, with a stop inside whose rest is discarded, and a phrase after it.
def external_paces():
    speech = pack(voiced(9, 20, KS) + SILENCE + repeat(4, 40) + unvoiced(7, OTHER_KS[:4]) + STOP
                  + voiced(3, 7, KS) + STOP + SILENCE * 8)
    out = image(b'\x00') + voice(voices.plain()) + power_up() + write(SPEAK_EXTERNAL, *speech[:20]) + run(1)
    out += write(*speech[16:24]) + read()
    for at in range(6):
        out += run(199) + step() + write(*speech[16 + at:18 + at]) + read()
    # too slow: the frame is not whole when it is due
    out += power_up() + write(SPEAK_EXTERNAL, *speech[:9]) + run(150) + write(speech[9]) + run(49) + step()
    return out + run(200) + step() + read()
