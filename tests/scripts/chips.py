"""Short names for the S records of the stored script, and the frames that its speech is made of."""
import states
from images import SILENCE, STOP, repeat, unvoiced, voiced
from script import state

KS = [21, 9, 6, 11, 3, 14, 8, 5, 2, 6]
OTHER_KS = [3, 30, 15, 1, 12, 5, 10, 1, 7, 4]
# a frame of each kind, the widest first
KINDS = [voiced(8, 32, KS), unvoiced(2, OTHER_KS[:4]), repeat(7, 33), SILENCE, STOP]


def chip(fields):
    return state(states.numbers(fields))


def silent(**changes):
    """The chip as powered up, but for these fields."""
    return chip(states.powered_up(**changes))


def in_mode(mode, **changes):
    """A chip in a mode, in the middle of a frame, but for these fields."""
    return chip(states.in_mode(mode, **changes))


def at_boundary(mode, **changes):
    """A chip in a mode, before a frame's first sample."""
    return in_mode(mode, **{'sample': 0, 'interval': 0, **changes})


def external(level, **changes):
    """External speech with so many bytes held."""
    return in_mode(states.EXTERNAL, **{**dict.fromkeys(states.FIFO, 0), **states.held(level), **changes})


def fifo(data, used, **changes):
    """External speech before a frame's first sample, with these bytes held."""
    held = {**dict.fromkeys(states.FIFO, 0), **{states.FIFO[i]: byte for i, byte in enumerate(data)}}
    return at_boundary(states.EXTERNAL, **{**held, 'level': len(data), 'used': used, **changes})
