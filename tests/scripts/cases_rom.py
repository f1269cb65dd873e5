"""Cases for document 01's "Refusal numbers", "ROM" and the bits of "Frames"."""
import voices
from chips import KINDS, KS, OTHER_KS, external, in_mode, silent
from images import SILENCE, STOP, pack, repeat, unvoiced, voiced
from script import *
from states import EXTERNAL, IDLE, ROM, WAITING


# Each pair of faults that a call can have at once, and a refused call with much in the chip to hand back.
def order_of_checks():
    good, bad_voice, voice_file = b'\x05\xff\xff', voices.plain(3)[:-1], voices.plain(3)
    out = voice(voice_file) + image(b'') + in_mode(ROM, nibble=5)
    out += step() + run(0, 4) + write(SPEAK) + look() + acknowledge() + read() + walk(0, 1) + frame_at(0, 1)
    out += voice(bad_voice) + step() + run(0, 2)
    out += image(good) + step() + run(0, 2) + write(SPEAK, RESET, READ_BYTE)
    out += voice(voice_file) + step() + run(0, 2)
    # WAIT comes before BEYOND; in the external modes no byte is a command
    for mode in (IDLE, ROM, WAITING, EXTERNAL):
        out += in_mode(mode, position=8 * len(good)) + write(READ_BYTE, READ_AND_BRANCH, SPEAK)
    out += external(16) + write(SPEAK, RESET, 0) + image(b'') + write(0) + image(good) + step()
    # an image is asked for although a byte for the FIFO needs none; a voice file although the chip is silent
    out += image(b'') + in_mode(WAITING) + write(1) + image(good) + write(1)
    out += voice(b'') + power_up() + step() + run(0, 3) + voice(voice_file) + step() + run(0, 3)
    # Reset is refused by a bad state and by a bad image
    return out + in_mode(EXTERNAL, used=8) + write(RESET) + image(b'') + power_up() + write(RESET)


# The bits of one image, each the first of a frame: all kinds, whole, and cut by the end after each number of bits.
def frames_at_bits():
    data = pack(voiced(9, 37, KS) + unvoiced(4, KS[:4]) + repeat(14, 63) + repeat(1, 0) + SILENCE + STOP
                + voiced(6, 1, OTHER_KS) + SILENCE)
    out = image(data) + frame_at(*range(8 * len(data) + 2)) + frame_at(2 ** 32 - 1)
    # the frame's last bit is the image's, and one bit less, for each kind
    for frame in KINDS:
        for text in (frame, frame[:-1]):
            lead = -len(text) % 8
            out += image(pack('1' * lead + text)) + frame_at(lead)
    return out


# Walks from every address of an image with phrases that end on each bit of a byte, and the image without its last bytes.
def walks():
    data = b''
    for lead in range(8):
        # so many bits that the stop ends on another bit of its byte
        data += pack(repeat(3, lead + 8) * lead + STOP, '1')
    data += pack(voiced(5, 15, KS) + unvoiced(5, KS[:4]) + STOP) + b'\x10'
    out = image(data) + walk(*range(len(data) + 2))
    # many frames of the shortest kind, and a part whose sum passes 65,536
    out += image(bytes(40) + b'\xff') + walk(0) + image(pack(repeat(14, 63) * 250 + STOP)) + walk(0, 2 ** 32 - 1)
    return out + image(data[:-9]) + walk(0, len(data) - 12)


# Loads: each nibble in its place, the fifth with all its values, six and more in a row, and from inside a byte.
def loads():
    out = image(bytes(range(1, 100)))
    out += power_up() + write(*[load(nibble) for nibble in (0xA, 0xB, 0xC, 0xD, 0xF, 0x5, 0x6)])
    # each nibble as the first, from inside a byte, and all values at each nibble
    for nibble in range(5):
        out += silent(position=8 * 0x2A5A5 + 3, nibble=nibble, interrupt=1)
        out += write(*[load(value) + 0x80 * (value & 1) for value in (0xF, 0x0, 0x3, 0xC, 0x5)])
    return out


# What restarts the nibble and what does not, and what ends pending data. Each command with the top bit that it has not in
# every_command, where no data is pending.
def restarts():
    out = image(bytes([0x12, 0x34, 0x56, 0x78, 0xFF] * 4))
    for command in COMMANDS:
        top = 0 if command & 0x10 else 0x80
        out += silent(position=19, nibble=3, interrupt=1, pending=1, data=0x5A) + write(command + top + 9) + read(2)
    return out


# Read Byte at each bit of a byte and near the image's end; several before a read; each data read but once. Branches, and Speak.
def read_bytes():
    out = image(bytes([0x9C, 0x35, 0xE1, 0x7A]))
    for position in range(8):
        out += silent(position=position, interrupt=position & 1) + write(READ_BYTE) + read(2)
    for position in (23, 24):
        out += silent(position=position, pending=1, data=0x77) + write(READ_BYTE, READ_BYTE) + read(2)
    # position 24 is the first of the last byte; a second byte for the branch is missing there
    for position in (0, 5, 16, 23, 24):
        out += silent(position=position, nibble=2, pending=1, data=1) + write(READ_AND_BRANCH) + read()
    # no eight bits left, and no two bytes; Speak needs one bit
    for position in (25, 31, 32, 33, 40):
        out += silent(position=position, nibble=2, interrupt=1, pending=1, data=0x77) + write(READ_BYTE, READ_AND_BRANCH)
        out += write(SPEAK) + read() + write(RESET)
    return out
