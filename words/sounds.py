"""The sounds that words are drawn of, and the files that name them: a sound and its frames to a line, # before a comment."""
import re
from typing import NamedTuple


class Sound(NamedTuple):
    """Where the filter has its peaks and how wide they are, in hertz, and how loud the sound is: the root mean square of its samples."""
    peaks: tuple
    widths: tuple
    loud: float


OPEN = (80, 110, 180, 280)
# The nose takes up much of the high tones: wide peaks stand for that, as the chip's filter has no dips of its own.
NASAL = (70, 250, 300, 350)
NOISE = (250, 350)

VOICED = {
    'ah': Sound((730, 1090, 2440, 3400), OPEN, 110),
    'uh': Sound((620, 1190, 2390, 3400), OPEN, 105),
    'eh': Sound((530, 1840, 2480, 3400), OPEN, 110),
    'iy': Sound((270, 2290, 3010, 3500), OPEN, 80),
    'oh': Sound((500, 850, 2400, 3400), OPEN, 105),
    'uw': Sound((340, 920, 2240, 3300), OPEN, 80),
    'w': Sound((330, 700, 2200, 3300), OPEN, 65),
    'y': Sound((270, 2200, 3000, 3500), OPEN, 65),
    'l': Sound((360, 1100, 2700, 3400), OPEN, 65),
    'r': Sound((380, 1150, 1600, 3300), OPEN, 65),
    'n': Sound((280, 1400, 2300, 3300), NASAL, 55),
    'm': Sound((280, 1100, 2200, 3300), NASAL, 50),
    'd': Sound((250, 1750, 2600, 3400), NASAL, 28),
}
UNVOICED = {
    's': Sound((3100, 3750), NOISE, 38),
    'h': Sound((560, 1800), NOISE, 20),
}
GAP = 'gap'


def sound_of(line):
    """The name and the frames of a line."""
    words = line.split()
    if len(words) != 2 or not re.fullmatch('[1-9][0-9]{0,2}', words[1]):
        raise ValueError('a sound and its frames are wanted, 1 to 999')
    if words[0] not in VOICED and words[0] not in UNVOICED and words[0] != GAP:
        raise ValueError(f'{words[0]}: there is no such sound')
    return words[0], int(words[1])


def text_of(path):
    try:
        return path.read_text('utf-8', 'replace')
    except OSError as error:
        raise SystemExit(f'{path}: {error.strerror}')


def sounds_of(path):
    """The sounds of a file with their frames, in order."""
    sounds = []
    for number, line in enumerate(text_of(path).split('\n'), 1):
        line = line.split('#')[0].strip()
        try:
            sounds += [sound_of(line)] if line else []
        except ValueError as error:
            raise SystemExit(f'{path}:{number}: {error}')
    if not sounds:
        raise SystemExit(f'{path}: a sound is wanted')
    return sounds


def opens_at_rest(names):
    """Whether a frame with the mouth at rest comes before these sounds. Noise needs none: its filter hardly rounds to one side."""
    return names[0] in VOICED


def closes_at_rest(names):
    """Whether such a frame comes after them."""
    return names[-1] in VOICED
