"""Document 01's "Numbers to try", and what the longest image has beside them."""
import voices
from chips import silent
from images import MOST_IMAGE_BYTES, SILENCE, STOP, pack, repeat
from script import *
from states import LAST_POSITION, ROM


# "FF: phrase of 4 bits, 1 frame. 0F: 8 bits, 2 frames. 00: NO PHRASE. 1F FF: 15 bits. 03 83: NO PHRASE. FF, walk from 1:
# BEYOND." (proved as well), and the image of the lister's example.
def numbers_walks():
    data = [b'\xff', b'\x0f', b'\x00', b'\x1f\xff', b'\x03\x83', b'\x03\x83\xe0']
    return b''.join(image(part) + walk(0, 1) for part in data)


# "loads 41 42 43 40 40 give address 801. 05 C0 at 0, branch: address 5." (proved as well)
def numbers_addresses():
    return image(b'\x05\xc0') + power_up() + write(0x41, 0x42, 0x43, 0x40, 0x40) + power_up() + write(READ_AND_BRANCH)


# "After Speak External status is 60, after one byte 40, after eight 40, after nine 80."
def numbers_status():
    out = image(b'\xff') + voice(voices.plain()) + power_up() + write(SPEAK_EXTERNAL) + read() + write(0xFF) + read()
    return out + write(*[0xFF] * 7) + read() + write(0xFF) + read()


# "Nine FF and one step: 60 and interrupt." The nine bytes are those of numbers_status.
def numbers_nine_ff():
    return step() + read(2)


# "Nine 00: step 201 leaves C0, step 3401 ran out, 60."
def numbers_nine_00():
    out = power_up() + write(SPEAK_EXTERNAL, *[0] * 9) + run(200) + step() + read()
    return out + run(3199) + step() + read()


# "A seventeenth byte before any step: WAIT."
def numbers_seventeenth():
    return power_up() + write(SPEAK_EXTERNAL, *range(1, 18)) + read()


# "voice of 499 and 562 bytes can be valid, 498 and 563 are VOICE SIZE."
def numbers_voices():
    shortest, longest = voices.plain(1), voices.plain(64)
    under, over = shortest[:-1], longest + b'\0'
    assert [len(data) for data in (under, shortest, longest, over)] == [498, 499, 562, 563]
    return power_up() + b''.join(voice(data) + step() for data in (under, shortest, longest, over))


# "Image of 262,144 bytes is valid, 262,145 is IMAGE". The longest image also has what is near the last position and across the
# 16,384-byte chips.
def numbers_images():
    most = MOST_IMAGE_BYTES
    data = bytearray(most)
    data[16383:16385] = b'\x34\x12'
    data[16384:16386] = b'\x78\xd6'
    data[81919:81922] = b'\x21\xff\xff'
    tail = pack(repeat(5, 9) + SILENCE + STOP, '1')
    data[-len(tail):] = tail
    out = image(bytes(data)) + frame_at(8 * most - 24, 8 * most - 1, 8 * most, 8 * most + 1)
    out += walk(most - len(tail), most - 1, most, 0)
    return out + last_positions(most - len(tail)) + across_chips() + image(bytes(most + 1)) + refused_by_image()


# The end of the longest image: read, branched at, spoken to its last bit, and loads from the last position.
def last_positions(tail):
    out = voice(voices.plain())
    for nibble in range(5):
        out += silent(position=LAST_POSITION, nibble=nibble) + write(load(0xD))
    for position in (LAST_POSITION - 17, LAST_POSITION - 9, LAST_POSITION - 8, LAST_POSITION - 7, LAST_POSITION):
        out += silent(position=position, interrupt=1) + branch() + write(READ_BYTE) + read() + write(SPEAK)
    out += power_up() + load_address(tail) + write(SPEAK) + step() + run(599) + step()
    # frames that end with the last bit, and one that lacks bits there
    for position in (LAST_POSITION - 4, LAST_POSITION - 3, LAST_POSITION):
        out += silent(mode=ROM, sounding=1, position=position) + step() + run(200) + step()
    return out


# Read and Branch whose word lies in two chips, and one whose word has bits above the fourteenth.
def across_chips():
    out = b''
    for address in (16383, 16384, 81919):
        out += power_up() + load_address(address) + branch() + write(READ_BYTE) + read()
    return out


# Every call that takes an image, with one that is too long.
def refused_by_image():
    out = frame_at(0, 2 ** 32 - 1) + walk(0, MOST_IMAGE_BYTES, MOST_IMAGE_BYTES + 1) + power_up()
    return out + step() + run(0, 3) + read() + write(SPEAK, RESET)
