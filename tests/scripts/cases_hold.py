"""Cases for document 02's §3: the frames that hold, what stays in them, and the flag that tells it."""
import states
import themes
import voices
from cases_rates import LENGTHS, RATES, told
from chips import KS, OTHER_KS, at_boundary, chip, fifo, in_mode
from images import SILENCE, STOP, pack, rated, repeat, unvoiced, voiced
from pick import Pick
from script import *
from states import EXTERNAL, IDLE, ROM, WAITING

VOICED, UNVOICED = voiced(8, 37, KS), unvoiced(11, OTHER_KS[:4])
# an energy that is 0, though its index is not
HUSHED = voices.HUSHED
HUSHED_VOICED, HUSHED_UNVOICED = voiced(HUSHED, 20, OTHER_KS), unvoiced(HUSHED, KS[:4])
# every kind but the stop; the ones that can be so voiced and unvoiced, loud and hushed
FRAMES = [VOICED, UNVOICED, SILENCE, repeat(7, 12), repeat(5, 0), HUSHED_VOICED, HUSHED_UNVOICED, repeat(HUSHED, 50),
          repeat(HUSHED, 0)]


def all_pairs(things):
    """Each of the things followed by each of them, itself too, in the shortest row."""
    row = []
    for at, one in enumerate(things):
        row.append(one)
        for other in things[at + 1:]:
            row += [one, other]
    return row + things[:1]


# Each kind of frame behind each, in frames of 50 samples, which have one interval in which the currents may stay and the one in
# which they reach their targets. Then each kind as the first one, and as the last before a stop, on a TMS5220.
def holding_pairs():
    row = all_pairs(FRAMES)
    out = image(pack(''.join(row))) + voice(voices.hushed(30)) + power_up_c() + write(frame_rate(0, 3), SPEAK)
    out += (step() + run(49)) * len(row) + step()
    for frame in FRAMES:
        out += image(pack(frame + STOP)) + power_up() + write(SPEAK) + step() + run(199) + step()
    return out


# Frames that hold and one that does not at each rate, the first sample of each interval by a step.
def holding_intervals():
    frames = [VOICED, UNVOICED, voiced(13, 9, OTHER_KS), repeat(2, 60)]
    out = image(pack(''.join(frames))) + voice(voices.hushed(40))
    for rate in RATES:
        out += power_up_c() + write(frame_rate(0, rate), SPEAK) + (step() + run(24)) * (len(frames) * (8 - 2 * rate))
    return out


# The same with rate bits, long and short frames side by side, from the FIFO.
def holding_mixed_rates():
    frames = [VOICED, UNVOICED, SILENCE, repeat(5, 0), repeat(7, 12), STOP]
    out = image(b'\x00') + voice(voices.hushed(40))
    for rates in ([2, 3, 0, 1, 3, 2], [1, 0, 3, 2, 0, 3]):
        speech = pack(''.join(map(rated, rates, frames)))
        out += power_up_c() + write(frame_rate(1, 3 - rates[0]), SPEAK_EXTERNAL, *speech)
        for rate in rates:
            out += step() + run(LENGTHS[rate] - 27) + step() + run(25)
        out += step()
    return out


# Old targets, not currents, decide, and not the flag that was there: currents that differ from their targets in silence or in
# voicing stand before frames that change nothing, and before frames that change the targets alone.
def holding_by_targets():
    out = voice(voices.hushed(30))
    # energy and pitch of the targets and of the currents
    for hold, target, current, frame in ((1, (40, 60), (0, 0), VOICED), (1, (40, 60), (0, 60), VOICED),
                                         (0, (40, 60), (40, 0), repeat(7, 12)), (0, (0, 60), (40, 60), VOICED),
                                         (0, (40, 0), (40, 60), VOICED), (1, (40, 60), (40, 0), UNVOICED),
                                         (0, (0, 60), (0, 60), HUSHED_UNVOICED), (1, (0, 0), (40, 60), HUSHED_UNVOICED),
                                         (1, (40, 60), (40, 60), SILENCE), (1, (0, 60), (0, 0), SILENCE),
                                         (1, (0, 0), (40, 0), STOP), (1, (40, 60), (0, 60), STOP)):
        names = ['target energy', 'target pitch', 'current energy', 'current pitch']
        fields = dict(zip(names, target + current))
        out += image(pack(frame)) + at_boundary(ROM, hold=hold, **fields) + step() + run(24) + step()
    return out


# A sound that is there goes by its flag in every mode: before each interval, and inside one.
def holding_states():
    out = image(pack(VOICED)) + voice(voices.hushed(30))
    modes = [IDLE, WAITING, EXTERNAL, ROM]
    for interval in range(1, 8):
        mode = modes[interval % 4]
        rate = told(interval % 2, interval % 3) if interval % 3 else {}
        out += in_mode(mode, hold=1, sample=0, interval=interval, **rate) + step(2)
    for sample, interval in ((24, 5), (24, 6), (7, 6), (7, 7)):
        out += in_mode(IDLE, hold=1, sample=sample, interval=interval) + step(2)
    # silent so far, then loud, and still holding, with the pulses of the frame and with its noise
    for pitch in (0, 50):
        fields = {'current energy': 0, 'current pitch': 50 - pitch, 'target pitch': pitch, 'target energy': 70}
        out += in_mode(IDLE, hold=1, sample=23, interval=6, **fields) + step(4)
        out += in_mode(ROM, hold=1, sample=0, interval=6, **{**fields, 'current energy': 90}) + step(3)
    return out


# The flag's range: a chip that does not sound holds nothing, and each call says so; one that sounds may.
def hold_ranges():
    out = image(b'\x00\xff') + voice(voices.soft(2))
    for fields in states.hold_edges():
        out += chip(fields) + look() + acknowledge() + read()
        if not fields['sounding']:
            out += step() + run(0, 2) + write(SPEAK, RESET)
    # with data pending, with the interrupt, before the last sample of a frame and with nothing to reach
    out += in_mode(IDLE, hold=1, pending=1, data=0x5A, interrupt=1) + look() + acknowledge(2)
    out += in_mode(ROM, hold=1, sample=24, interval=7, interrupt=1) + look()
    return out + in_mode(ROM, hold=1, **dict.fromkeys(states.CURRENT + states.TARGET, 0)) + look()


# Rest ends the holding: running out, the end of a stop's frame, Reset, and TS rising. Other commands and reads do not.
def holding_and_rest():
    data = pack(VOICED)
    out = image(data) + voice(voices.hushed(30))
    rated_chip = told(1, 1)
    out += at_boundary(ROM, hold=1, position=8 * len(data)) + step() + fifo(b'\xff', 6, hold=1, **rated_chip) + step()
    out += at_boundary(IDLE, hold=1, **rated_chip) + step() + at_boundary(WAITING, hold=1) + step() + look()
    for mode, device in ((IDLE, {}), (ROM, rated_chip)):
        out += in_mode(mode, hold=1, interrupt=1, **device) + look() + acknowledge() + read() + write(RESET)
    # Speak, and the ninth byte in waiting, while a frame that holds still sounds
    out += in_mode(IDLE, hold=1, sample=24, interval=6) + write(load(0), NOTHING, READ_BYTE) + read() + step()
    out += write(load(0), SPEAK) + step()
    out += in_mode(IDLE, hold=1, **rated_chip) + write(frame_rate(0, 2), SPEAK_EXTERNAL, *range(8)) + step()
    return out + write(0x19) + step()


# A phrase of frames that change in one run, on both devices.
def longest_holding_run():
    pick = Pick(3)
    frames = ''.join(pick.one_of(FRAMES) for _ in range(12))
    out = image(pack(frames + STOP)) + voice(voices.hushed(20))
    for up in (power_up(), power_up_c() + write(frame_rate(0, 1))):
        out += up + write(SPEAK) + run(2650) + read()
    return out


# The random themes, each once, but for the last, whose runs are long.
def some_of_each_hold_theme():
    return b''.join(theme(Pick(30230 + at)) for at, theme in enumerate(themes.OF_HOLDS[:-1]))


HOLD_TOPICS = [holding_pairs, holding_intervals, holding_mixed_rates, holding_by_targets, holding_states, hold_ranges,
               holding_and_rest, longest_holding_run, some_of_each_hold_theme]
