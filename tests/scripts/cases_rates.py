"""Cases for document 02's §5: the TMS5220C, Load Frame Rate, rate bits, frames of 200, 150, 100 and 50 samples."""
import states
import themes
import voices
from chips import KINDS, KS, OTHER_KS, at_boundary, chip, fifo, in_mode, silent
from images import SILENCE, STOP, pack, rated, repeat, unvoiced, voiced
from pick import Pick
from script import *
from states import EXTERNAL, IDLE, ROM, TMS5220C, WAITING

RATES = range(4)
LENGTHS = [200, 150, 100, 50]
# one frame of each kind, the stop last
SPEECH = [voiced(9, 37, KS), SILENCE, repeat(6, 12), unvoiced(11, OTHER_KS[:4]), STOP]
# where v = 1, each frame with another rate, long and short ones side by side, the stop at each rate
MIXED = [[3, 0, 2, 1, 3], [0, 3, 1, 2, 0], [2, 1, 3, 0, 1], [1, 2, 0, 3, 2]]


def with_rates(frames, rates):
    return ''.join(map(rated, rates, frames))


def set_rate(v, rr):
    return write(frame_rate(v, rr))


def told(v, rr, **changes):
    """Fields of a TMS5220C with this rate."""
    return {'device': TMS5220C, 'v': v, 'rr': rr, **changes}


# An image that is too long comes before v and rr out of range. It is the one that numbers_images ends with.
def rates_refused_by_image():
    out = b''
    for v, rr in ((0, 0), (1, 3), (2, 0), (1, 4)):
        out += rated_frame_at(v, 0, 2 ** 32 - 1) + rated_walk(v, rr, 0, 2 ** 32 - 1)
    return out + power_up_c() + write(frame_rate(1, 3), RESET) + step() + run(0, 3) + read()


# Load Frame Rate in idle: v and rr with all the free bits, each byte after another rate. On a TMS5220 the same bytes.
def rate_bytes():
    free = [0, 0x08, 0x20, 0x28, 0x80, 0x88, 0xA0, 0xA8]
    out = image(bytes(range(60, 70))) + power_up_c()
    for low in (7, 0, 5, 2, 4, 3, 6, 1):
        out += write(*[bits + (low + 3 * at) % 8 for at, bits in enumerate(free)])
    return out + power_up() + write(*[bits + 7 - at for at, bits in enumerate(free)])


# What Load Frame Rate leaves as it was: the nibble, the interrupt, the position; and what it ends: pending data.
def rate_and_the_rest():
    out = image(bytes(range(60, 100))) + voice(voices.soft(5))
    rest = {'position': 41, 'nibble': 3, 'interrupt': 1}
    out += silent(**told(1, 2, pending=1, data=0x5A, **rest)) + write(0x01) + read(2)
    out += silent(**told(0, 1, pending=1, data=0x5A, **rest)) + write(0xAE) + read()
    # between Read Byte and the read of its byte, and between the loads of an address
    out += power_up_c() + write(load(2), load(0), 0x26, load(0), READ_BYTE, 0x03, READ_BYTE) + read()
    out += write(load(5), 0x07, SPEAK)
    # other commands keep the rate; Reset and both power-ups do not
    for command in (READ_BYTE, READ_AND_BRANCH, load(0), SPEAK_EXTERNAL):
        out += power_up_c() + set_rate(1, 2) + write(command) + read()
    out += power_up_c() + set_rate(1, 3) + write(RESET) + set_rate(0, 3) + write(RESET, load(1)) + set_rate(1, 1)
    return out + power_up_c() + set_rate(1, 3) + power_up() + set_rate(1, 3) + power_up_c()


# Load Frame Rate in ROM speech has to wait, before the first step and after it; Reset does not, and ends the rate.
def rate_in_rom_speech():
    text = with_rates([SPEECH[0]] * 3 + [STOP], [1, 2, 3, 0])
    out = image(pack(text)) + voice(voices.soft()) + power_up_c() + set_rate(1, 2) + write(SPEAK, 0x00, 0x27)
    out += step() + write(0x03, 0x24, 0xA8, 0x10, 0xFF)
    # a plain chip speaks on after Reset
    out += write(SPEAK) + step() + run(199) + step() + write(RESET)
    # refused by the image and by the state ahead of WAIT
    out += power_up_c() + set_rate(0, 1) + write(SPEAK) + image(b'') + write(0x02, RESET) + image(pack(text)) + write(0x02)
    return out + in_mode(ROM, **told(0, 4)) + write(0x02, RESET)


# In the external modes Load Frame Rate is a byte for the FIFO.
def rate_in_external_speech():
    text = with_rates([SPEECH[2]] * 4 + [STOP], [3, 2, 3, 0, 3])
    out = image(b'\x00') + voice(voices.soft()) + power_up_c() + set_rate(1, 3) + write(SPEAK_EXTERNAL, 0x00, 0x27, RESET)
    out += power_up_c() + set_rate(1, 0) + write(SPEAK_EXTERNAL, *pack(text), 0x02, 0x20, 0x07) + step() + write(0x01, 0x70)
    out += run(49) + step() + run(99) + step() + run(49) + step() + run(199) + step() + write(0x01) + run(49) + step()
    # a full FIFO refuses it
    return out + power_up_c() + set_rate(0, 3) + write(SPEAK_EXTERNAL, *range(1, 17), 0x04) + step()


# A frame of each kind in ROM speech at each rate, by rr and by rate bits, interval by interval and beyond the stop's frame.
def rates_from_rom():
    out = voice(voices.plain(40))
    for v in (0, 1):
        for rate in RATES:
            frames = with_rates(SPEECH, [rate] * 5) if v else ''.join(SPEECH)
            # with v = 1 another rr, which no frame goes by
            out += image(pack(frames)) + power_up_c() + set_rate(v, (rate + v) % 4) + write(SPEAK)
            for _ in SPEECH:
                out += step() + run(LENGTHS[rate] - 2) + step()
            out += step(2) + read()
    return out


# The same from the FIFO, all of whose bytes are there at the start.
def rates_from_fifo():
    out = image(b'\x00') + voice(voices.plain(40))
    for v in (0, 1):
        for rate in RATES:
            frames = with_rates(SPEECH, [rate] * 5) if v else ''.join(SPEECH)
            out += power_up_c() + set_rate(v, (rate + v) % 4) + write(SPEAK_EXTERNAL, *pack(frames, '1'))
            for _ in SPEECH:
                out += step() + run(LENGTHS[rate] - 1)
            out += step() + read()
    return out


# Each interpolation of frames at each rate: the first sample of each interval by a step.
def rate_intervals():
    frames = [voiced(14, 50, KS), voiced(3, 9, OTHER_KS)]
    out = voice(voices.plain(40))
    for v in (0, 1):
        for rate in RATES:
            text = with_rates(frames, [rate] * 2) if v else ''.join(frames)
            out += image(pack(text)) + power_up_c() + set_rate(v, rate) + write(SPEAK)
            for _ in range(2 * (8 - 2 * rate)):
                out += step() + run(24)
    return out


# With v = 1 long and short frames one after another, walked, taken one by one, spoken in one run and in pieces; each rr.
def mixed_rates():
    out = voice(voices.soft())
    for at, rates in enumerate(MIXED):
        frames = SPEECH[at:4] + SPEECH[:at] + [STOP]
        text = with_rates(frames, rates)
        out += image(pack(text)) + rated_walk(1, at, 0) + rated_walk(1, 3 - at, 0)
        place = 0
        for frame in frames:
            out += rated_frame_at(1, place)
            place += len(frame) + 2
        lengths = [LENGTHS[rate] for rate in rates]
        out += power_up_c() + set_rate(1, at) + write(SPEAK)
        for length in lengths:
            out += step() + run(length - 1)
        out += step() + power_up_c() + set_rate(1, 3 - at) + write(SPEAK) + run(sum(lengths) - 1, 2) + read()
    return out


# With v = 0 one rate for all frames: walks at each rr, from addresses with and without a phrase; a TMS5220 walks at rate 00.
def fixed_rates():
    data = b'\xf0' + pack(''.join(SPEECH)) + b'\x00\x00' + pack(repeat(3, 8) * 3 + STOP) + b'\x11'
    out = image(data) + walk(0, 1)
    for rr in RATES:
        out += rated_walk(0, rr, *range(len(data) + 1)) + rated_walk(1, rr, 0, 1, 16)
    return out + rated_frame_at(0, *range(8, 8 + 20)) + frame_at(8)


# The stop's frame lasts its own samples. Load Frame Rate in it is for the frames to come; so is Speak in it.
def stops_at_rates():
    out = voice(voices.soft())
    for rate in RATES:
        for v in (0, 1):
            text = with_rates([SPEECH[0], STOP], [3, rate]) if v else SPEECH[0] + STOP
            out += image(pack(text)) + power_up_c() + set_rate(v, 0 if v else rate) + write(SPEAK)
            out += run(50 if v else LENGTHS[rate]) + step() + set_rate(1 - v, 3 - rate) + run(LENGTHS[rate] - 2) + step(2)
    # Speak and Speak External while the stop's frame sounds, at another rate
    text = pack(SPEECH[0] + STOP)
    out += image(text) + power_up_c() + set_rate(0, 2) + write(SPEAK) + run(100) + step() + load_address(0) + set_rate(0, 3)
    out += write(SPEAK) + step() + run(49) + step() + set_rate(0, 1) + write(SPEAK_EXTERNAL, *text) + run(48) + step(2)
    return out + write(*text) + step() + run(149) + step() + read()


# Boundaries of the TMS5220C: a frame is taken at interval 0 alone, whatever the rate; a silent chip takes none.
def rate_boundaries():
    out = image(pack(with_rates(SPEECH, [2] * 5))) + voice(voices.soft())
    for sample, interval in ((24, 7), (24, 5), (0, 6), (24, 3), (0, 2), (7, 0)):
        out += in_mode(ROM, **told(1, 3, sample=sample, interval=interval)) + step(2)
    out += in_mode(ROM, **told(0, 3, sample=24, interval=7)) + step(2) + at_boundary(IDLE, **told(0, 3)) + step(2)
    out += in_mode(WAITING, **told(1, 1, sample=24, interval=7)) + step(2)
    return out + power_up_c() + set_rate(1, 3) + step() + run(60) + read()


def padded(text):
    """The text as an image with its last bit at the image's end, and where it begins."""
    lead = -len(text) % 8
    return image(pack('1' * lead + text)), lead


# Images that end after each bit of a frame of each kind: in the rate bits, in the energy and behind it. Frames taken at each
# bit of one image.
def rate_cuts():
    out = b''
    for at, kind in enumerate(KINDS):
        frame = rated((2 * at + 1) % 4, kind)
        for present in range(1, len(frame) + 1):
            record, lead = padded(frame[:present])
            out += record + rated_frame_at(1, lead)
    data = pack(with_rates([KINDS[1], KINDS[2], SILENCE, STOP, KINDS[0]], [2, 1, 3, 0, 1]))
    return out + image(data) + rated_frame_at(1, *range(8 * len(data) + 2)) + rated_frame_at(0, 2, 33, 8 * len(data) - 1)


# Walks and ROM speech whose image ends inside the rate bits, between them and the energy, inside the energy, and with a frame.
def rate_ends():
    out = voice(voices.soft())
    for count, more in ((3, '1'), (6, '11'), (2, '111110'), (5, '1111110'), (4, '1111'), (8, '')):
        text = rated(3, repeat(5, 20)) * count + more
        assert len(text) % 8 == 0
        out += image(pack(text)) + rated_walk(1, 0, 0) + power_up_c() + set_rate(1, 1) + write(SPEAK)
        out += run(50 * count - 1) + step() + step() + read()
    # one or two bits are enough for Speak, though not for a frame
    for position in (13, 14, 15, 16):
        out += image(b'\xff\xff') + silent(**told(1, 3, position=position)) + write(SPEAK) + step()
    return out


# FIFO frames with rate bits that end one bit after the last held one, with it, and before it; cut inside the rate bits.
def rate_fifo_ends():
    out = image(b'\x00') + voice(voices.soft())
    for at, kind in enumerate(KINDS):
        frame = rated(3 - at % 4, kind)
        for text in (frame[:-1], frame, frame + '1'):
            used = -len(text) % 8
            out += fifo(pack('1' * used + text), used, **told(1, at % 4)) + step()
    for present in (1, 2, 3):
        out += fifo(b'\xff', 8 - present, **told(1, 2)) + step()
    # what is whole without rate bits, and the bytes that leave with them
    return out + fifo(b'\x0f', 4, **told(1, 0)) + step() + fifo(b'\x00' * 9, 2, **told(1, 0)) + step() + read()


# External speech of mixed rates, fed a byte at a time as BL asks for it.
def rated_external_pace():
    frames = [SPEECH[0], repeat(4, 40), SPEECH[3], SILENCE, repeat(9, 3), voiced(3, 7, OTHER_KS), STOP]
    rates = [2, 3, 1, 3, 0, 3, 1]
    speech = pack(with_rates(frames, rates)) + pack(rated(3, SPEECH[0]) + rated(3, STOP))
    out = image(b'\x00') + voice(voices.plain()) + power_up_c() + set_rate(1, 1) + write(SPEAK_EXTERNAL, *speech[:12])
    at = 12
    for rate in rates:
        out += step() + run(LENGTHS[rate] - 1) + write(*speech[at:at + 3])
        at += 3
    return out + step() + read()


# v and rr in and out of range in a state, in a frame taken and in a walk; which fault comes first.
def rate_ranges():
    data = pack(with_rates(SPEECH, [1, 3, 0, 2, 3]))
    out = image(data) + voice(voices.soft(2))
    for fields in states.rate_edges():
        out += chip(fields) + look() + acknowledge() + read() + step()
    out += silent(**told(2, 0)) + read() + write(0x00, RESET) + step() + run(0, 2)
    out += silent(**told(1, 4)) + read() + write(0x00, RESET) + step() + run(0, 2)
    # a state may be out of range in several ways; image and voice file come first
    out += voice(b'') + step() + image(b'') + step() + write(0) + read() + image(data) + voice(voices.soft(2))
    for v in (0, 1, 2, 3, 128, 255):
        out += rated_frame_at(v, 0, 8 * len(data), 2 ** 32 - 1, 8 * len(data) - 1)
        for rr in (0, 1, 2, 3, 4, 5, 128, 255):
            out += rated_walk(v, rr, 0, len(data))
    # no image and too long an address, each with v or rr out of range
    out += image(b'')
    for v, rr in ((0, 0), (1, 3), (2, 0), (0, 4), (255, 255)):
        out += rated_frame_at(v, 0, 8) + rated_walk(v, rr, 0, 1)
    # no phrase, and v out of range
    return out + image(b'\x00') + rated_walk(0, 0, 0) + rated_walk(2, 0, 0) + rated_walk(0, 4, 0) + rated_frame_at(2, 6)


# A TMS5220 has no rate: the bytes do nothing, frames have no rate bits and 200 samples, and its refusals are document 01's.
def rates_of_tms5220():
    text = with_rates(SPEECH, [1, 3, 0, 2, 3])
    out = image(pack(text)) + voice(voices.soft()) + power_up() + set_rate(1, 3) + write(0x27, 0xAA, SPEAK) + step() + run(198)
    out += step(2) + write(0x07, RESET, 0x07, SPEAK_EXTERNAL, 0x07, *pack(text)) + step() + run(199) + step()
    return out + frame_at(0) + walk(0)


# A long phrase of short frames in one run.
def longest_rated_run():
    pick = Pick(5221)
    frames = [pick.one_of(SPEECH[:4]) for _ in range(60)]
    data = pack(with_rates(frames + [STOP], [pick.below(4) for _ in range(61)]))
    out = image(data) + voice(voices.soft()) + power_up_c() + set_rate(1, 0)
    return out + rated_walk(1, 0, 0) + write(SPEAK) + run(LONGEST_RUN)


# The random themes of the TMS5220C, each once, but for the last, whose runs are long.
def some_of_each_rate_theme():
    return b''.join(theme(Pick(52200 + at)) for at, theme in enumerate(themes.OF_RATES[:-1]))


RATE_TOPICS = [rates_refused_by_image, rate_bytes, rate_and_the_rest, rate_in_rom_speech, rate_in_external_speech,
               rates_from_rom, rates_from_fifo, rate_intervals, mixed_rates, fixed_rates, stops_at_rates, rate_boundaries,
               rate_cuts, rate_ends, rate_fifo_ends, rated_external_pace, rate_ranges, rates_of_tms5220, longest_rated_run,
               some_of_each_rate_theme]
