"""Voice files, good and bad in each way (document 01, "Voice file")."""
import struct

ENERGIES, PITCHES, K_VALUES = 15, 64, 168
MOST_PULSES = 64
LENGTH, VERSION, ENERGY, PITCH, K, COUNT = 0, 2, 3, 33, 161, 497
LEAST_SIZE, MOST_SIZE = 499, 562


def file_of(energies, pitches, ks, pulses):
    """The voice file with these tables."""
    body = bytes([1]) + struct.pack('>15H64H168h', *energies, *pitches, *ks)
    body += bytes([len(pulses)]) + bytes(pulse & 255 for pulse in pulses)
    return struct.pack('>H', len(body)) + body


def plain(pulses=MOST_PULSES):
    """A voice in which each index means another number, so that a wrong index is heard."""
    energies = [0] + [68 * i + 5 for i in range(1, ENERGIES)]
    pitches = [0] + [3 * i + 11 for i in range(1, PITCHES)]
    ks = [(37 * i) % 1024 - 512 for i in range(K_VALUES)]
    return file_of(energies, pitches, ks, [(29 * i + 40) % 256 for i in range(pulses)])


def soft(pulses=MOST_PULSES):
    """A voice with small K values, whose filter is never at its bounds."""
    energies = [0] + [7 * i for i in range(1, ENERGIES)]
    pitches = [0] + [i + 20 for i in range(1, PITCHES)]
    ks = [(53 * i) % 201 - 100 for i in range(K_VALUES)]
    return file_of(energies, pitches, ks, [(31 * i) % 100 - 50 for i in range(pulses)])


def loud(pulses=MOST_PULSES):
    """A voice of the largest numbers, whose filter is always at its bounds."""
    energies = [0] + [1023] * (ENERGIES - 1)
    pitches = [0] + [1023, 1, 2] * 21
    ks = [-512 if i % 3 else 511 for i in range(K_VALUES)]
    return file_of(energies, pitches, ks, [-128 if i % 2 else 127 for i in range(pulses)])


# an energy index of the next voice whose value is 0; so is that of each third one
HUSHED = 3


def hushed(pulses=MOST_PULSES):
    """The soft voice with 0 among its energies, which a frame that is no silence then has."""
    data = soft(pulses)
    for index in range(HUSHED, ENERGIES, 3):
        data = with_value(data, ENERGY, index, 0)
    return data


def any_voice(pick):
    """A random valid voice file."""
    far = pick.one_of([60, 300, 512])
    energies = [0] + [pick.edge(0, 1023) for _ in range(ENERGIES - 1)]
    pitches = [0] + [pick.one_of([1, 1023, pick.between(1, 200)]) for _ in range(PITCHES - 1)]
    ks = [pick.edge(-far, far - 1) for _ in range(K_VALUES)]
    pulses = [pick.edge(-128, 127) for _ in range(pick.edge(1, MOST_PULSES))]
    return file_of(energies, pitches, ks, pulses)


def with_bytes(data, at, new):
    return data[:at] + new + data[at + len(new):]


def with_value(data, table, index, value):
    return with_bytes(data, table + 2 * index, struct.pack('>H', value & 65535))


def bad_sizes(data):
    """VOICE SIZE: outside 499..562, the length field right."""
    for size in (0, 1, 2, LEAST_SIZE - 1, MOST_SIZE + 1):
        cut = (data + bytes(MOST_SIZE))[:size]
        yield with_bytes(cut, LENGTH, struct.pack('>H', max(size - 2, 0))[:size])


def bad_lengths(data):
    """VOICE LENGTH: the length field off by one, by the two bytes of its own, turned round, and by 256."""
    right = len(data) - 2
    for length in (right - 1, right + 1, right + 2, right >> 8 | (right & 255) << 8, right - 256, right + 256):
        yield with_bytes(data, LENGTH, struct.pack('>H', length))


def bad_versions(data):
    """VOICE VERSION: each other byte nearby, and the last."""
    for version in (0, 2, 129, 255):
        yield with_bytes(data, VERSION, bytes([version]))


def edge_values(data):
    """VOICE VALUE: outside each table's ends by one, at its first, second and last place; then all low ends in one file, and
    all high ends."""
    tables = (ENERGY, ENERGIES - 1, 0, 1023), (PITCH, PITCHES - 1, 1, 1023), (K, K_VALUES - 1, -512, 511)
    for table, last, low, high in tables:
        for index in (0, 1, last):
            for value in (low - 1, high + 1):
                yield with_value(data, table, index, value)
    for end in (2, 3):
        whole = with_value(data, K, 0, tables[2][end])
        for table in tables:
            for index in (1, table[1]):
                whole = with_value(whole, table[0], index, table[end])
        yield whole
    # the first energy and the first pitch are 0, not just small
    yield with_value(data, ENERGY, 0, 1)
    yield with_value(data, PITCH, 0, 1)
    yield with_value(data, PITCH, 1, 32768)
    yield with_value(data, K, 0, 32768)
    yield with_value(data, K, 0, 32767)
    yield with_value(data, K, 0, -1)


def edge_counts(data):
    """VOICE PULSE: the pulse count off by one from what the size says, 0, 64, 65 and 255."""
    right = data[COUNT]
    for count in (right - 1, right + 1, 0, 64, 65, 128, 255):
        yield with_bytes(data, COUNT, bytes([count & 255]))
    # a count of 0 or 65 that agrees with the length field: its size is already a fault
    for count in (0, 65):
        whole = (data[:COUNT] + bytes([count]) + data[COUNT + 1:] + bytes(65))[:COUNT + 1 + count]
        yield with_bytes(whole, LENGTH, struct.pack('>H', 496 + count))


FAULTS = [bad_sizes, bad_lengths, bad_versions, edge_values, edge_counts]


def two_faults(data):
    """Two faults at a time, one for each pair of neighbours in the order of checks 5, 6, 7, 8, 9."""
    length = with_bytes(data, LENGTH, b'\0\0')
    version = with_bytes(data, VERSION, b'\2')
    value = with_value(data, K, 3, 512)
    yield length[:LEAST_SIZE - 1]
    yield with_bytes(length, VERSION, b'\2')
    yield with_value(version, K, 3, 512)
    yield with_bytes(value, COUNT, b'\0')
    yield with_bytes(length, COUNT, b'\0')
    yield with_value(length, PITCH, 1, 0)
    yield with_bytes(version, COUNT, b'\0')


def any_bad(pick):
    """A random voice file with a fault, or on the edge of one."""
    data = any_voice(pick)
    return pick.one_of(list(pick.one_of(FAULTS + [two_faults])(data)))
