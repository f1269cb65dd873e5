"""Cases for document 02's §12: the two samples that a branch takes, what has to wait meanwhile, and what counts as a sample."""
import states
import themes
import voices
from cases_rates import told
from chips import chip, in_mode, silent
from images import STOP, pack, repeat
from pick import Pick
from script import *
from states import IDLE

# Words, of which fourteen bits count: to 4, to 8, to itself, and out of the image; at 8 a phrase, at 10 one that is a stop
# alone; behind that the last byte, which no word can begin with. One nibble is enough for each address.
TO_PHRASE, TO_ITSELF, TO_NOWHERE, STOPPED, LAST = 2, 4, 6, 10, 11
WORDS = b'\x04\xc0\x08\x40\x04\x80\xff\x3f' + pack(repeat(voices.HUSHED, 50) + STOP) + b'\xf7\x01'
# both devices, each with another order, the second with a rate
UPS = [power_up(), plain_power_up_c() + write(frame_rate(1, 2))]
# the same for speech, and the samples of a frame on them; a TMS5220 takes no notice of the rate
SHORT = frame_rate(0, 3)
SPEAKING = [(power_up(), 200), (plain_power_up_c() + write(SHORT), 50)]
# each command with one top bit, and with the other
BYTES = [command | (0x86 if command & 0x10 else 0x03) for command in COMMANDS]
OTHERS = [byte ^ 0x80 for byte in BYTES]
# what is BEYOND where no byte is left
READERS = [READ_BYTE, READ_AND_BRANCH, SPEAK]


# Each command at 2 and at 1, on both devices, and then each where it is taken. The topics that follow have image and voice file
# from here.
def busy_bytes():
    out = image(WORDS) + voice(voices.hushed(2))
    for up in UPS:
        out += up + write(READ_AND_BRANCH, *BYTES) + step() + write(*OTHERS) + step()
        out += write(BYTES[0], OTHERS[2], load(TO_PHRASE)) + branch() + write(READ_BYTE) + read() + write(SPEAK, RESET)
        out += branch() + write(SPEAK_EXTERNAL)
    return out


# A run counts by its steps: none, one, two and more at a time, alone and with others; at 0 the count stays. The word leads to
# itself, so that a branch can follow another.
def busy_runs():
    waits = [run(0), run(1), run(2), run(3), run(40), run(1, 1), run(0, 1, 0), run(1, 5), step() + run(1), run(1) + step(),
             step() + run(0), step() + run(3)]
    out = power_up() + write(load(TO_ITSELF))
    for at, wait in enumerate(waits):
        if at == 6:
            out += plain_power_up_c() + write(load(TO_ITSELF))
        out += write(READ_AND_BRANCH) + wait + write(NOTHING) + run(2)
    return out + step() + run(3)


# Steps and runs that are refused, by the voice file, by the image and by the state, leave the count; so do looks and reads. The
# image and the state are checked before the count is, and the count before what is BEYOND.
def busy_refusals():
    good, none = image(WORDS), image(b'')
    out = power_up() + write(READ_AND_BRANCH) + voice(b'') + step() + run(0, 1, 2) + write(RESET) + look()
    out += none + step() + run(0, 3) + write(RESET, READ_AND_BRANCH) + look() + acknowledge() + read()
    out += good + voice(voices.hushed(2)) + step() + none + step() + run(2) + write(READ_AND_BRANCH) + look() + good
    out += write(NOTHING) + step() + write(NOTHING)
    for fields in ({'busy': 2, 'nibble': 5}, {'busy': 1, 'sample': 1, **told(1, 0)}, {'busy': 3}):
        out += silent(position=8 * len(WORDS), **fields) + write(*READERS, RESET) + step() + run(0, 2)
    out += none + write(SPEAK, RESET) + step() + good
    # out of the image, where all that reads waits before it is BEYOND
    for up in UPS:
        out += up + write(load(TO_NOWHERE), READ_AND_BRANCH, *READERS) + step() + write(*READERS) + step()
        out += write(*READERS, READ_AND_BRANCH | 0x85, NOTHING)
    return out


# Another branch while the chip is busy has to wait and does not start the count anew; behind it one does. A branch that is
# BEYOND takes no time.
def busy_branches():
    out = b''
    for up in UPS:
        out += up + write(READ_AND_BRANCH, READ_AND_BRANCH) + step() + write(READ_AND_BRANCH | 0x8A) + step()
        out += write(READ_AND_BRANCH | 0x80, NOTHING) + step(2) + write(load(LAST), READ_AND_BRANCH, NOTHING, RESET)
        out += write(READ_AND_BRANCH) + run(1) + write(READ_AND_BRANCH) + run(1) + write(READ_BYTE, READ_AND_BRANCH) + read()
    return out


# The frame of a stop sounds on while the chip is busy: from its first samples on, across an interval's end, across the frame's
# end and from there, where the sound is put to rest.
def busy_sounds():
    out = b''
    for (up, length), counts in zip(SPEAKING, ((0, 198, 199), (23, 48, 49))):
        out += up
        for count in counts:
            out += write(load(STOPPED), SPEAK) + step() + run(count) + write(load(TO_ITSELF), READ_AND_BRANCH, RESET)
            out += step() + write(SPEAK) + step() + write(SHORT)
    # the ends once more, in runs
    for count in (length - 2, length - 1):
        out += write(load(STOPPED), SPEAK) + step() + run(count) + write(load(TO_ITSELF), READ_AND_BRANCH) + run(1)
        out += write(READ_BYTE) + run(2)
    return out


# Reads, looks and acknowledges at 2, 1 and 0 behind a branch, which ends pending data; and in states that no calls lead to, with
# data, the interrupt and a nibble. Bytes that wait and steps leave all that.
def busy_reads():
    out = b''
    for up in UPS:
        out += up + write(READ_BYTE, load(TO_PHRASE), READ_BYTE, READ_AND_BRANCH) + look() + acknowledge() + read()
        out += write(RESET) + step() + read() + acknowledge() + write(load(1)) + look() + step() + look() + read()
    rest = {'pending': 1, 'interrupt': 1, 'nibble': 3, 'position': 37}
    for given in (silent(busy=2, data=0x5A, **rest), in_mode(IDLE, busy=1, data=0xA5, order=LEAST_FIRST, **rest, **told(1, 2))):
        out += given + look() + write(READ_BYTE, NOTHING) + step() + look() + acknowledge() + look() + step() + read() + look()
    # no data and no interrupt; a sound that is interpolated on; a data byte of 0
    for given in (silent(busy=1, nibble=2, **told(0, 1)), in_mode(IDLE, busy=2, sample=24), silent(busy=2, pending=1)):
        out += given + write(SPEAK) + step(2) + look()
    return out + write(READ_AND_BRANCH)


# An entry of a table, a branch and the phrase that it leads to: Speak at once, after one sample and after two. Then the same
# with external speech.
def busy_speech():
    out = b''
    for up, length in SPEAKING:
        out += up + load_address(TO_PHRASE) + write(READ_AND_BRANCH, SPEAK) + step() + write(SPEAK) + step()
        out += write(SPEAK) + step() + run(length - 1) + step() + read()
        out += write(load(TO_ITSELF), READ_AND_BRANCH, SPEAK_EXTERNAL, 0x31) + run(2) + write(SPEAK_EXTERNAL, 0x31) + step()
    return out


# Each power-up of a chip that is busy.
def busy_power_ups():
    ups = [plain_power_up(), plain_power_up_c()] + [power_up_with(device, order) for device in (0, 1) for order in (0, 1)]
    return power_up() + b''.join(write(READ_AND_BRANCH) + up for up in ups)


# States: 1 and 2 in idle alone; what is out of range is refused by each call.
def busy_ranges():
    out = b''
    for at, fields in enumerate(states.busy_edges()):
        out += chip(fields) + look()
        if fields['mode'] == IDLE or at % 4 == 1:
            out += acknowledge() + read() + write(RESET) + step() + run(0, 2)
    return out


# The random themes, each once.
def some_of_each_busy_theme():
    return b''.join(theme(Pick(120260 + at)) for at, theme in enumerate(themes.OF_BUSY))


BUSY_TOPICS = [busy_bytes, busy_runs, busy_refusals, busy_branches, busy_sounds, busy_reads, busy_speech, busy_power_ups,
               busy_ranges, some_of_each_busy_theme]
