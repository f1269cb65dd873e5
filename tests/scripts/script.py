"""The records of a trace script: written, and taken apart again."""
import struct

from states import LEAST_FIRST, MOST_FIRST, TMS5220, TMS5220C

MOST_SCRIPT_BYTES = 1048576
LONGEST_RUN = 8192
CHIP_NUMBERS = 69


# ---- one function for each letter; what it returns is the record's bytes

def image(data):
    return b'I' + struct.pack('<I', len(data)) + data


def voice(data):
    return b'V' + struct.pack('<I', len(data)) + data


def frame_at(*bits):
    return b''.join(b'F' + struct.pack('<I', bit) for bit in bits)


def walk(*addresses):
    return b''.join(b'A' + struct.pack('<I', address) for address in addresses)


# power-ups: of each device with a bit order of the FIFO, with document 01's, which is asked for by name, and plain

def power_up_with(device, order):
    return b'O' + bytes([device, order])


def power_up():
    return power_up_with(TMS5220, MOST_FIRST)


def power_up_c():
    return power_up_with(TMS5220C, MOST_FIRST)


def plain_power_up():
    return b'P'


def plain_power_up_c():
    return b'Q'


# the TMS5220C

def rated_frame_at(v, *bits):
    return b''.join(b'G' + struct.pack('<BI', v, bit) for bit in bits)


def rated_walk(v, rr, *addresses):
    return b''.join(b'B' + struct.pack('<BBI', v, rr, address) for address in addresses)


# look and acknowledge, on either device

def look(count=1):
    return b'L' * count


def acknowledge(count=1):
    return b'K' * count


def state(numbers):
    assert len(numbers) == CHIP_NUMBERS
    return b'S' + b''.join(struct.pack('<q', number) for number in numbers)


def write(*data):
    return b''.join(b'W' + bytes([byte]) for byte in data)


def read(count=1):
    return b'R' * count


def step(count=1):
    return b'T' * count


def run(*lengths):
    return b''.join(b'U' + struct.pack('<I', length) for length in lengths)


# ---- the bytes to write for each command, the top bit zero

NOTHING, ALSO_NOTHING, READ_BYTE, READ_AND_BRANCH, SPEAK, SPEAK_EXTERNAL, RESET = 0x00, 0x20, 0x10, 0x30, 0x50, 0x60, 0x70
COMMANDS = [NOTHING, READ_BYTE, ALSO_NOTHING, READ_AND_BRANCH, 0x40, SPEAK, SPEAK_EXTERNAL, RESET]


def load(nibble):
    return 0x40 + nibble


def frame_rate(v, rr):
    """Load Frame Rate, the free bits zero."""
    return 4 * v + rr


def branch():
    """Read and Branch, and the two samples that it takes; with a bad voice file these are refused, and the next byte waits."""
    return write(READ_AND_BRANCH) + run(2)


def load_address(address):
    """The five loads of a byte address, lowest nibble first."""
    return write(*[load(address >> 4 * i & 15) for i in range(5)])


# ---- taking a script apart

# the letters whose answer has a second line, the chip
WITH_CHIP = b'PQOWRTULK'
# the letters that call an operation of the library
CALLS = b'VFAPQOGBWRTULK'
FIXED = {b'F': 4, b'A': 4, b'P': 0, b'S': 8 * CHIP_NUMBERS, b'W': 1, b'R': 0, b'T': 0, b'U': 4, b'Q': 0, b'G': 5, b'B': 6,
         b'L': 0, b'K': 0, b'O': 2}


def records(script):
    """Each whole record as (offset, end, letter, number of answer lines), up to the first bad one."""
    at = 0
    while at < len(script):
        letter = script[at:at + 1]
        start = at
        if letter in (b'I', b'V'):
            if len(script) - at < 5:
                return
            at += 5 + struct.unpack_from('<I', script, at + 1)[0]
        elif letter in FIXED:
            at += 1 + FIXED[letter]
        else:
            return
        if at > len(script) or letter == b'U' and struct.unpack_from('<I', script, start + 1)[0] > LONGEST_RUN:
            return
        if letter == b'O' and max(script[start + 1:at]) > 1:
            return
        yield start, at, letter, 2 if letter in WITH_CHIP else 1
