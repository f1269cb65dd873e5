"""Cases for document 02's §9: the order in which the bits of a FIFO byte leave, the power-ups that take it, what keeps it and
what does not ask for it. The cases before these have most significant first, so that most of these have the other order."""
import states
import themes
import voices
from cases_hold import all_pairs
from cases_rates import LENGTHS, told
from cases_short import IN_FIFO, REPEAT, STOPPED, UNVOICED, VOICED, before, frame, pairs
from chips import KS, OTHER_KS, chip, fifo, in_mode
from images import SILENCE, STOP, fed, pack, rated, repeat, unvoiced, voiced
from pick import Pick
from script import *
from states import EXTERNAL, WAITING

ORDERS = [LEAST_FIRST, MOST_FIRST]
# frames of 50 samples on a TMS5220C; a TMS5220 takes no notice
SHORT = write(frame_rate(0, 3))
# both devices, least significant first, and the samples of a frame on them
LEAST = [(power_up_with(TMS5220, LEAST_FIRST) + SHORT, 200), (power_up_with(TMS5220C, LEAST_FIRST) + SHORT, 50)]
PLAIN = [(plain_power_up() + SHORT, 200), (plain_power_up_c() + SHORT, 50)]
# one frame of each kind, the stop last
SPEECH = [voiced(9, 37, KS), SILENCE, repeat(6, 12), unvoiced(11, OTHER_KS[:4]), STOP]
# frames without a sound, whose answers are short
HUSHED = [voiced(voices.HUSHED, 20, KS), unvoiced(voices.HUSHED, OTHER_KS[:4]), repeat(voices.HUSHED, 50), SILENCE]


def spoken(order, frames, lengths):
    """External speech: sixteen bytes, and behind each frame as many more as have left. Each frame's first sample is a step."""
    data = fed(order, ''.join(frames))
    # what is behind a stop is never spoken
    data += b'\x35' * (9 - len(data))
    out, there, bits = write(SPEAK_EXTERNAL, *data[:16]), 16, 0
    for text, length in zip(frames, lengths):
        bits += len(text)
        out += step() + run(length - 1) + write(*data[there:16 + bits // 8])
        there = 16 + bits // 8
    return out


# The chip that the player starts with, before any power-up.
def first_chip():
    return look()


# Each power-up behind each other one, and behind a chip that has the other order and much in it.
def power_ups():
    ups = [plain_power_up(), plain_power_up_c()] + [power_up_with(device, order) for device in (0, 1) for order in ORDERS]
    out = b''.join(all_pairs(ups))
    for order in ORDERS:
        out += in_mode(EXTERNAL, order=order, interrupt=1, **told(1, 2)) + ups[1 - order]
        out += in_mode(WAITING, order=order) + power_up_with(TMS5220C, 1 - order)
    return out


# A frame of each kind, least significant first, on both devices, on the plain power-up of each and some on the one that is told
# the order; the same speech in the other order. Then the same bytes to both orders: another speech to each.
def ordered_kinds():
    out = image(b'\x35') + voice(voices.hushed(2))
    for frames, ups in ((SPEECH, PLAIN), (SPEECH[2:], LEAST)):
        for up, length in ups:
            out += up + spoken(LEAST_FIRST, frames, [length] * len(frames)) + step() + read()
    out += power_up_c() + SHORT + spoken(MOST_FIRST, SPEECH, [50] * 5)
    data = fed(LEAST_FIRST, SPEECH[2] + SPEECH[3] + SPEECH[0])
    for order in ORDERS:
        out += power_up_with(TMS5220C, order) + SHORT + write(SPEAK_EXTERNAL, *data) + (step() + run(49)) * 4
    return out


# With rate bits, long and short frames side by side, each rate with another one's bits turned round.
def ordered_rates():
    out = image(b'\x35') + voice(voices.hushed(2))
    one, other = [1, 2, 3, 0, 2], [2, 1, 0, 3, 1]
    for up, order, rates in ((plain_power_up_c(), LEAST_FIRST, one), (power_up_with(TMS5220C, LEAST_FIRST), LEAST_FIRST, other),
                             (power_up_c(), MOST_FIRST, one)):
        texts = [rated(rate, text) for rate, text in zip(rates, SPEECH)]
        out += up + write(frame_rate(1, 3 - rates[0])) + spoken(order, texts, [LENGTHS[rate] for rate in rates]) + step()
    return out


def at_each_bit(frames):
    """A row of these frames in which each of them begins once at each bit of a byte: a tour over all ways between the bits."""
    ways = {bit: list(frames) for bit in range(8)}
    row, path = [], [(0, '')]
    while path:
        bit, text = path[-1]
        if ways[bit]:
            text = ways[bit].pop()
            path.append(((bit + len(text)) % 8, text))
        else:
            row.append(path.pop()[1])
    assert len(row) == 8 * len(frames) + 1
    return row[-2::-1]


# Frames that begin at each bit of a byte: each kind but the stop without rate bits, some with them. A stop that ends a byte and
# stops that lie in two, behind repeats; each leads to the next speech on the same chip.
def ordered_crossings():
    out = image(b'\x35') + voice(voices.hushed(2))
    row = at_each_bit(HUSHED) + [STOP]
    data, bits = fed(LEAST_FIRST, ''.join(row)), 0
    out += plain_power_up_c() + SHORT + write(SPEAK_EXTERNAL, *data[:16]) + run(1)
    for text in row[:-1]:
        out += write(*data[16 + bits // 8:16 + (bits + len(text)) // 8]) + run(50)
        bits += len(text)
    row = at_each_bit([rated(2, HUSHED[1]), rated(1, HUSHED[2])]) + [rated(1, STOP)]
    lengths = [LENGTHS[int(text[:2], 2)] for text in row]
    out += plain_power_up_c() + write(frame_rate(1, 0)) + spoken(LEAST_FIRST, row, lengths)
    out += plain_power_up_c() + SHORT
    for count in (4, 7, 2, 5):
        data = fed(LEAST_FIRST, HUSHED[2] * count + STOP)
        out += write(SPEAK_EXTERNAL, *data, *[0x35] * (9 - len(data))) + run(50 * count) + step()
    return out


# What keeps the order: each command, Reset in idle, in ROM speech and in a stop's frame; the stop; running out; rest; Speak
# External; and whatever is spoken next goes by it.
def kept_orders():
    out = voice(voices.hushed(2))
    for up, length in LEAST:
        out += image(pack(repeat(6, 12) + STOP)) + up
        out += write(READ_BYTE, READ_AND_BRANCH, load(0), NOTHING, RESET, SPEAK) + step() + write(RESET) + SHORT
        # a stop with bytes behind it and its frame's end, running out of ROM and of the FIFO
        out += write(SPEAK_EXTERNAL, *fed(LEAST_FIRST, STOP + SPEECH[0] + SPEECH[3])) + step() + run(length) + read()
        out += image(b'\x80') + write(load(0), SPEAK) + step()
        out += write(SPEAK_EXTERNAL, *fed(LEAST_FIRST, SPEECH[0] + SPEECH[3][:22])) + run(length) + step(2)
        out += write(SPEAK_EXTERNAL, *fed(LEAST_FIRST, STOP + SPEECH[3] + SPEECH[0])) + step() + write(RESET)
        out += write(SPEAK_EXTERNAL, *fed(LEAST_FIRST, repeat(5, 3) * 7)) + step()
    return out


# Refused calls hand the order back: by the image, the voice file, the state, a full FIFO, ROM speech, the image's end.
def refused_orders():
    good, voice_file = image(b'\x2c\x80'), voice(voices.soft(2))
    out = good + voice_file + plain_power_up() + write(load(2), READ_BYTE, SPEAK, READ_AND_BRANCH, RESET)
    out += write(SPEAK, SPEAK_EXTERNAL) + step() + image(b'') + write(RESET) + step() + run(2) + good + write(RESET)
    out += write(SPEAK_EXTERNAL, *range(1, 18)) + voice(b'') + step() + run(0, 3) + voice_file + step()
    out += in_mode(EXTERNAL, order=LEAST_FIRST, nibble=5) + look() + acknowledge() + read() + step() + run(2)
    return out + write(0x31, RESET)


# The order is the FIFO's: Read Byte at a byte's first bit and inside one, branches, loads, ROM speech, frames taken and walks
# have none.
def orders_and_rom():
    data = pack(SPEECH[2] + STOP) + b'\x2c\x11\x02\xc0' + pack(SPEECH[3] + SPEECH[0] + STOP)
    out = image(data) + voice(voices.soft(5))
    for up, length in LEAST:
        out += up + write(READ_BYTE) + read() + write(READ_BYTE) + read() + load_address(4) + branch() + write(READ_BYTE)
        # from bit 15, behind the stop
        out += load_address(0) + write(SPEAK) + step() + run(length - 1) + step() + write(READ_BYTE, READ_BYTE) + read()
        out += load_address(6) + write(SPEAK) + step() + run(length - 1) + step()
    out += plain_power_up_c() + write(frame_rate(1, 2), SPEAK) + step(2)
    return out + frame_at(0, 48, 77) + walk(0, 6) + rated_frame_at(1, 0, 46) + rated_walk(1, 0, 0, 5)


# Speech that runs out: in the energy, the pitch and behind it, and with the last bit of a frame. Used up and missing are those
# of the bits in the order in which they leave.
def ordered_cuts():
    out = image(b'\x35') + voice(voices.hushed(2))
    for v, cuts in ((0, {VOICED: (2, 9, 11), UNVOICED: (12, 29), REPEAT: (8,), STOPPED: (4,)}),
                    (1, {VOICED: (1, 14), UNVOICED: (13,), REPEAT: (13,)})):
        for at, (kind, present) in enumerate(pairs(cuts)):
            cut = frame(kind, v)[:present]
            row = before(cut, v, IN_FIFO)
            up, length = PLAIN[0] if v == 0 and at % 3 == 0 else (plain_power_up_c() + write(frame_rate(v, 3)), 50)
            out += up + write(SPEAK_EXTERNAL, *fed(LEAST_FIRST, ''.join(row) + cut)) + run(length * len(row)) + step()
    return out


# "After Speak External status is 60, after one byte 40, after eight 40, after nine 80", BL rising and TS falling, looked at and
# acknowledged: neither the levels nor the status nor the interrupt ask for the order.
def looks_at_orders():
    speech = fed(LEAST_FIRST, SPEECH[0] + SPEECH[3] + STOP, '1')
    out = image(b'\x35') + voice(voices.hushed(2))
    for up, length in LEAST:
        out += up + write(SPEAK_EXTERNAL) + look()
        for byte in speech[:9]:
            out += write(byte) + look()
        out += step() + look() + write(*speech[9:]) + look() + acknowledge() + look() + run(length - 1) + step() + read()
        out += run(length - 1) + step() + look() + read() + acknowledge() + look()
    return out


# One run over a speech in both orders, and on both devices; and of bytes that are not turned round for the order.
def ordered_runs():
    speech = ''.join([voiced(12, 50, OTHER_KS), repeat(7, 30), unvoiced(4, KS[:4]), STOP])
    out = image(b'\x35') + voice(voices.soft(30))
    for (up, length), order in zip(LEAST + [(power_up_c() + SHORT, 50)], (0, 0, 1)):
        out += up + write(SPEAK_EXTERNAL, *fed(order, speech)) + run(length * 4 + 1) + read()
    for order in ORDERS:
        out += power_up_with(TMS5220C, order) + write(frame_rate(1, 0), SPEAK_EXTERNAL, *pack(speech)) + run(250)
    return out


# States: least significant first is valid in every mode and on both devices; what breaks a range breaks it with both orders.
# External speech goes on by the state's order and used bits.
def order_ranges():
    out = image(b'\x35\xff') + voice(voices.soft(2))
    for fields in states.order_edges():
        out += chip(fields) + look() + acknowledge() + read() + step() + run(0, 2)
    data = fed(LEAST_FIRST, '1' * 7 + SPEECH[0] + SPEECH[2] + SPEECH[3] + SILENCE * 2)
    for used, part, rate in ((7, data, {}), (3, data[1:4], told(0, 2)), (5, data[2:], told(1, 0)), (6, data[8:9], told(1, 3))):
        out += fifo(part, used, order=LEAST_FIRST, **rate) + step() + read()
    return out


# The random themes, each once.
def some_of_each_order_theme():
    return b''.join(theme(Pick(90220 + at)) for at, theme in enumerate(themes.OF_ORDERS))


ORDER_TOPICS = [power_ups, ordered_kinds, ordered_rates, ordered_crossings, kept_orders, refused_orders, orders_and_rom,
                ordered_cuts, looks_at_orders, ordered_runs, order_ranges, some_of_each_order_theme]
