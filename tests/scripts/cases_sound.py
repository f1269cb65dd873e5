"""Cases for document 01's "Sound"."""
import voices
from chips import KINDS, KS, OTHER_KS, at_boundary, in_mode, silent
from images import SILENCE, STOP, pack, repeat, unvoiced, voiced
from script import *
from states import CURRENT, IDLE, LAST_POSITION, MEMORY, RANGES, ROM, TARGET, WAITING, held


# All kinds of frames spoken from ROM, one after another, sample by sample at the start of each frame.
def spoken_kinds():
    kinds = [voiced(9, 37, KS), unvoiced(11, OTHER_KS[:4]), repeat(6, 12), SILENCE, voiced(14, 63, OTHER_KS), repeat(2, 0),
             unvoiced(1, KS[:4]), SILENCE, repeat(3, 1), voiced(1, 1, KS), STOP]
    out = b''
    for data in (voices.plain(), voices.soft(20), voices.loud()):
        out += voice(data) + image(pack(''.join(kinds))) + power_up() + write(SPEAK)
        for _ in kinds:
            out += step(2) + run(23) + step() + run(174)
        out += step(2) + read()
    return out


# Running out of ROM: before a frame's first bit, inside each kind, past the image's end; the last frame whole.
def rom_ends():
    out = voice(voices.soft())
    for frame in KINDS:
        for text in (frame, frame[:-1]):
            lead = -len(text) % 8
            out += image(pack('1' * lead + text)) + at_boundary(ROM, position=lead) + step() + run(199) + step()
    for position in (0, 7, 8, 9, 100, LAST_POSITION):
        out += image(b'\x08') + at_boundary(ROM, position=position, interrupt=position & 1) + step(2) + read()
    return out


# The image changes under a speaking chip: other bytes, shorter, longer, none, and back.
def image_changes():
    data = pack(repeat(5, 20) * 6 + STOP)
    out = voice(voices.soft()) + image(data) + power_up() + write(SPEAK) + step() + run(199)
    out += image(data[:5]) + step() + run(199) + image(b'') + step() + run(2) + write(RESET) + read()
    out += image(data + bytes(3)) + step() + run(199) + image(data[:3]) + step(2) + write(SPEAK)
    return out + image(data) + write(SPEAK) + run(201) + image(b'\xff') + run(200) + step() + read()


# Boundaries: the step at a frame boundary in idle and waiting puts the sound to rest; one sample before it does not.
def boundaries():
    out = image(b'\x00') + voice(voices.soft())
    for mode in (IDLE, WAITING):
        for sample, interval in ((0, 0), (24, 7), (0, 1), (24, 0), (1, 0)):
            out += in_mode(mode, sample=sample, interval=interval, interrupt=sample & 1) + run(0) + step(2) + run(2)
    # not sounding, nothing changes
    return out + silent(mode=WAITING, **held(3)) + step() + run(3) + read()


def targets(currents):
    """The same numbers as targets."""
    return {name.replace('current', 'target'): value for name, value in currents.items()}


# Interpolation at each interval: up and down, by less than the divisor and by more, all twelve numbers.
def interpolations():
    out = image(b'\x00') + voice(voices.soft())
    current = {**dict.fromkeys(CURRENT[:2], 500), **{name: 20 * i - 100 for i, name in enumerate(CURRENT[2:])}}
    for interval in range(8):
        for far in (1, 9):
            target = {name: current[name] + (far + max(i - 2, 0)) * (-1) ** i for i, name in enumerate(CURRENT)}
            # interval 0 takes a frame, a silence, whose energy target is 0
            mode = IDLE if interval else ROM
            out += in_mode(mode, sample=0, interval=interval, **current, **targets(target)) + step()
    # the ends of the ranges, furthest apart
    low, high = [{name: RANGES[name][end] for name in CURRENT} for end in (0, 1)]
    for interval in (1, 3, 5, 7):
        for current, target in ((low, high), (high, low)):
            out += in_mode(IDLE, sample=0, interval=interval, **current, **targets(target)) + step(2)
    return out


# Excitation: the pulse place against pitch and table's end; the noise register with each tap alone and all.
def excitations():
    out = image(b'\x00') + voice(voices.plain(40))
    flat = dict.fromkeys(CURRENT[2:] + TARGET[2:] + MEMORY, 0)
    # so many steps from each place: up to the table's end and past it, up to the pitch and to 0
    for place, pitch, steps in ((0, 0, 1), (0, 1, 1), (0, 2, 3), (38, 100, 3), (98, 100, 3), (101, 100, 1), (1021, 1023, 3),
                                (1022, 0, 1)):
        for target in (0, 50):
            fields = {'place': place, 'current pitch': pitch, 'target pitch': target, 'current energy': 1000}
            out += in_mode(IDLE, **flat, **fields) + step(steps)
    # 2, 4, 9, 18; 2048, 4096, 1, 3; 8, 17; two, three and four taps; 8191, 8190, 8189, 8186
    for noise, steps in ((2, 4), (2048, 4), (8, 2), (5, 1), (12, 1), (13, 1), (4097, 1), (4100, 1), (4104, 1),
                         (4109, 1), (8191, 4)):
        fields = {'noise': noise, 'target pitch': 0, 'current energy': 3 * (noise % 50) + 1}
        out += in_mode(IDLE, **flat, **fields) + step(steps)
    return out


# The filter: each stage alone with negative and positive products, the bounds of forward values, memory and sample.
def filters():
    out = image(b'\x00') + voice(voices.plain(40))
    quiet = dict.fromkeys(CURRENT + TARGET + MEMORY, 0)
    for stage in range(10):
        for k, memory in ((511, -1), (-512, 8191), (3, 170)):
            fields = {CURRENT[2 + stage]: k, MEMORY[stage]: memory, 'current energy': 77}
            out += in_mode(IDLE, **{**quiet, **fields}) + step(2)
    # every memory and every K at a bound
    for k in (-512, 511):
        for memory in (-8192, 8191):
            fields = {**dict.fromkeys(CURRENT[2:] + TARGET[2:], k), **dict.fromkeys(MEMORY, memory)}
            out += in_mode(IDLE, **{'current energy': 1023}, **fields) + step(3)
    # samples at and past 511 and -512: with K 0 the sample is the input
    for energy in (510, 511, 512, 513, 514):
        # even, even, odd: up, up, down
        out += in_mode(IDLE, **{**quiet, 'current energy': energy, 'noise': 2}) + step(3)
    # the input's floor: pulses of both signs, energies that 64 does not divide
    fields = {'target pitch': 60, 'current pitch': 60, 'current energy': 333, 'place': 0}
    return out + in_mode(IDLE, **{**quiet, **fields}) + step(6)
