"""Cases for document 02's §10: what a stop throws away of the FIFO, and the steps that throw nothing away."""
import states
import themes
import voices
from cases_rates import LENGTHS
from cases_short import RATE, ROWS
from chips import chip
from images import STOP, fed, pack, rated, repeat
from pick import Pick
from script import *
from states import EXTERNAL, WAITING

ORDERS = [LEAST_FIRST, MOST_FIRST]
# each device with and without rate bits
TOLD = [(TMS5220, 0), (TMS5220C, 0), (TMS5220C, 1)]
# what stands behind a stop: ones, zeros and both
BEHIND = ['0110100101' * 13, '0' * 130, '1' * 130]
STOPS = [STOP, rated(RATE, STOP)]
# a stop and bits behind it as an image
IN_ROM = image(pack(STOP, '1') + b'\x5a')
START = IN_ROM + voice(voices.hushed(2))


def lead(v, left):
    """The shortest row of whole frames with which a stop behind them leaves so many bits of its byte."""
    rows = [row for bits, row in ROWS[v].items() if (bits + len(STOPS[v]) + left) % 8 == 0]
    return min(rows, key=lambda row: (len(row), sum(map(len, row))))


def samples(device):
    """The samples of a frame on a chip to which RATE was loaded."""
    return LENGTHS[RATE] if device == TMS5220C else LENGTHS[0]


def speech(device, v, order, row, size, behind):
    """External speech of so many bytes: these frames, and a step that takes the stop."""
    text = ''.join(row) + STOPS[v]
    data = fed(order, text + behind[:8 * size - len(text)])
    return write(frame_rate(v, RATE), SPEAK_EXTERNAL, *data) + (run(samples(device) * len(row)) if row else b'') + step()


# Speeches one after another on a chip, each of which ends with a stop that leaves another number of bits of its byte; from nine
# bytes to all sixteen. A TMS5220C has them with and without rate bits by turns. What one stop throws away is not told by the next.
def thrown_speeches():
    out = START
    for order in ORDERS:
        for device, told in ((TMS5220, [(0, order), (0, order + 4)]),
                             (TMS5220C, [(0, order + 2), (1, 4 - order), (0, order + 6), (1, order)])):
            out += power_up_with(device, order)
            for v, left in told:
                size = 9 + (3 * left + 5 * v + 2 * device) % 8
                out += speech(device, v, order, lead(v, left), size, BEHIND[left % 3])
    return out


def stop_state(device, v, order, left, whole, **changes):
    """External speech before a stop that leaves so many bits of its byte, with so many bytes behind it; at most sixteen in all."""
    used = -(len(STOPS[v]) + left) % 8
    text = '01101101'[:used] + STOPS[v] + BEHIND[(left + whole) % 3][:left]
    data = fed(order, (text + BEHIND[whole % 3][:8 * whole])[:128])
    held = {states.FIFO[i]: byte for i, byte in enumerate(data)}
    told = {'device': device, 'v': v, 'order': order, 'used': used, 'level': len(data)}
    return chip(states.powered_up(**{'mode': EXTERNAL, 'sounding': 1, **told, **held, **changes}))


# The same by states: from none to fifteen bytes behind the stop; on each device odd numbers of bits in the one order and even ones
# in the other.
def thrown_states():
    out, whole = START, 0
    for order in ORDERS:
        for device, v in TOLD:
            for left in range(1 - order, 8, 2):
                out += stop_state(device, v, order, left, whole % 16) + step()
                whole += 5
    # with the last bit of the FIFO, of which nothing is left
    for order, (device, v) in zip((1, 0, 1), TOLD):
        out += stop_state(device, v, order, 0, 0) + step(2)
    return out


# A stop that is due: refused by the voice file, by the image and by the state, by steps and runs; then taken. The steps behind it,
# up to the end of its frame, tell nothing more, nor does a stop from ROM.
def thrown_once():
    out = START
    for device, v in TOLD:
        out += power_up_with(device, 1 - v) + speech(device, v, 1 - v, [], 9, BEHIND[0])[:-1]
        out += voice(b'') + step() + run(1) + image(b'') + step() + START + step(3)
        # the frame of a stop with rate bits has as many samples as one of RATE
        out += run(samples(device) - 3) + step() + write(load(0), SPEAK) + step(2)
    # a rate that is out of range, and a frame that is not over
    out += stop_state(TMS5220C, 1, MOST_FIRST, 2, 3, rr=4) + step()
    return out + stop_state(TMS5220, 0, LEAST_FIRST, 4, 2, sample=1) + step()


# A full FIFO, whose seventeenth byte is refused; a run that takes the stop and tells nothing, and the step behind it; frames that
# run out behind a stop, cut and with the last bit; and another stop behind those.
def thrown_and_used_up():
    out = START
    for order, v in ((LEAST_FIRST, 1), (MOST_FIRST, 0)):
        data = fed(order, STOPS[v] + BEHIND[0][:132])
        out += power_up_with(TMS5220C, order) + write(frame_rate(v, RATE), SPEAK_EXTERNAL, *data) + step()
        out += write(SPEAK_EXTERNAL, *data[:9]) + run(1) + step()
        # with rate bits seven frames and five bits, without them eight frames and none
        row = [rated(RATE, repeat(voices.HUSHED, 50)) if v else repeat(voices.HUSHED, 50)] * (8 - v)
        out += write(SPEAK_EXTERNAL, *fed(order, ''.join(row))) + run(LENGTHS[RATE] * 7) + step()
        out += speech(TMS5220C, v, order, [], 10, BEHIND[2])
    return out


# Speak External and some bytes while the frame of a stop sounds: the step at its end throws none of them away, nor does one on a
# silent chip. Once there are nine, the next stop comes at once.
def thrown_in_waiting():
    out = START
    for device, v in TOLD[1:]:
        out += power_up_with(device, v) + speech(device, v, v, [], 9, BEHIND[2])
        data = fed(v, STOPS[v] + BEHIND[0][:80])
        out += write(SPEAK_EXTERNAL, *data[:5]) + run(samples(device) - 1) + step(2) + write(*data[5:10]) + step()
    return out + stop_state(TMS5220, 0, MOST_FIRST, 4, 6, mode=WAITING) + step() + write(*range(60, 62)) + step()


# The random themes, each once.
def some_of_each_bits_theme():
    return b''.join(theme(Pick(100224 + at)) for at, theme in enumerate(themes.OF_BITS))


ACCOUNT_TOPICS = [thrown_speeches, thrown_states, thrown_once, thrown_and_used_up, thrown_in_waiting, some_of_each_bits_theme]
