"""Cases for document 02's §4: where a cut frame begins, how many bits it lacks, and what is used up of the FIFO."""
import themes
import voices
from cases_rates import LENGTHS, padded, told
from chips import KINDS, KS, OTHER_KS, at_boundary, fifo
from images import SILENCE, pack, rated, repeat, unvoiced, voiced
from pick import Pick
from script import *
from states import LAST_POSITION, ROM

VOICED, UNVOICED, REPEAT, SILENT, STOPPED = range(5)
# what stands before a cut frame: whole ones whose samples are 0, so that the answers are short
WHOLE = [voiced(voices.HUSHED, 20, KS), unvoiced(voices.HUSHED, OTHER_KS[:4]), repeat(voices.HUSHED, 50), SILENCE]
RATE = 3
# the bits that an image and the FIFO have together, whole frames and the cut one
IN_ROM, IN_FIFO = range(8, 129, 8), range(72, 129, 8)


def frame(kind, v):
    """A frame of each kind; with v = 1 each kind has another rate."""
    return rated((2 * kind + 1) % 4, KINDS[kind]) if v else KINDS[kind]


def rows(most, v):
    """For each number of bits up to `most` the shortest row of whole frames that has so many, where there is one."""
    frames = [rated(RATE, part) if v else part for part in WHOLE]
    found = {0: []}
    for bits in range(1, most + 1):
        longer = [found[bits - len(part)] + [part] for part in frames if bits - len(part) in found]
        if longer:
            found[bits] = min(longer, key=len)
    return found


ROWS = [rows(128, v) for v in (0, 1)]


def before(cut, v, totals):
    """The shortest row of whole frames that has one of these numbers of bits together with a cut frame behind it."""
    return min((ROWS[v][total - len(cut)] for total in totals if total - len(cut) in ROWS[v]), key=len)


def pairs(cuts):
    """Each kind of a table with each number of present bits that it has there."""
    return [(kind, present) for kind in cuts for present in cuts[kind]]


def powered(at, v):
    """A chip and the samples that a frame of a row has on it: with v = 0 on a TMS5220 and a TMS5220C by turns."""
    if v == 0 and at % 2 == 0:
        return power_up(), LENGTHS[0]
    return power_up_c() + write(frame_rate(v, RATE)), LENGTHS[RATE]


# "03 83: NO PHRASE": begun at bit 15, 3 missing, told by each call that meets it. A run over it tells nothing.
def cut_example():
    out = image(b'\x03\x83') + walk(0) + rated_walk(0, 2, 0) + frame_at(15) + rated_frame_at(0, 15) + rated_frame_at(1, 15)
    out += voice(voices.hushed(2)) + power_up_c() + write(frame_rate(0, RATE), SPEAK) + run(100) + step(2)
    return out + write(load(0), SPEAK) + run(101) + step()


# Frames cut after each of their bits, the first of their phrase or behind whole frames, in phrases from 0 and from other
# addresses. What has not one bit is BEYOND for the frame taken, and a cut energy for the walk.
def cut_phrases():
    cuts = {VOICED: range(50), UNVOICED: range(5, 29), REPEAT: range(5, 11), SILENT: range(1, 4), STOPPED: range(1, 4)}
    out = b''
    for at, (kind, present) in enumerate(pairs(cuts)):
        cut, address = KINDS[kind][:present], at % 3
        row = ''.join(before(cut, 0, IN_ROM))
        begun = 8 * address + len(row)
        out += image(b'\xf7\x5a'[:address] + pack(row + cut)) + frame_at(begun) + walk(address)
        out += rated_frame_at(0, begun) + rated_walk(0, at % 4, address)
    return out


# The same with rate bits, which are the frame's first two.
def cut_rated_phrases():
    cuts = {VOICED: range(52), UNVOICED: range(7, 31), REPEAT: range(7, 13), SILENT: range(1, 6), STOPPED: range(1, 6)}
    out = b''
    for at, (kind, present) in enumerate(pairs(cuts)):
        cut, address = frame(kind, 1)[:present], at % 3
        row = ''.join(before(cut, 1, IN_ROM))
        out += image(b'\xf7\x5a'[:address] + pack(row + cut))
        out += rated_frame_at(1, 8 * address + len(row)) + rated_walk(1, at % 4, address)
    return out


# Frames cut right behind their pitch and one bit before its end: a pitch of 0, one with each of its bits alone, and a repeat bit.
def cut_pitches():
    out = b''
    for head in [unvoiced(9, KS[:4])[:11], repeat(9, 0)] + [voiced(9, 1 << bit, KS)[:11] for bit in range(6)]:
        for text in (head, head[:-1]):
            record, lead = padded(text)
            out += record + frame_at(lead)
            record, lead = padded(rated(1, text))
            out += record + rated_frame_at(1, lead)
    return out


# Steps that run out of ROM behind whole frames, at each bound of what is missing and between them, and where no bit is left.
def cut_rom_speech():
    out = voice(voices.hushed(2))
    # what is there twice has its turn on both devices
    for v, cuts in ((0, {VOICED: (0, 0, 1, 1, 2, 4, 4, 5, 10, 11, 12, 16, 28, 29, 33, 48), UNVOICED: (11, 20, 24),
                         REPEAT: (5, 9), SILENT: (2, 3), STOPPED: (1,)}),
                    (1, {VOICED: (0, 1, 2, 3, 5, 6, 7, 12, 13, 14, 30, 31, 50), UNVOICED: (13, 24), REPEAT: (7, 11),
                         SILENT: (4,), STOPPED: (5,)})):
        for at, (kind, present) in enumerate(pairs(cuts)):
            cut = frame(kind, v)[:present]
            row = before(cut, v, IN_ROM)
            up, length = powered(at, v)
            out += image(pack(''.join(row) + cut)) + up + write(SPEAK)
            out += (run(length * len(row)) if row else b'') + step()
    return out


# Between two frames the image is exchanged for a shorter one: the next frame is cut, or the position is past the image's end.
# Then the last position there is.
def short_images():
    out = voice(voices.hushed(2))
    for at, v in ((0, 0), (1, 0), (2, 1)):
        data = pack(ROWS[v][50 + 2 * v][0] + frame(VOICED, v))
        up, length = powered(at, v)
        out += up
        for size in (8, 7, 6, 1):
            out += image(data) + write(load(0), SPEAK) + run(length) + image(data[:size]) + step()
    for device in (told(0, 1), told(1, 2)):
        out += at_boundary(ROM, position=LAST_POSITION, **device) + step()
    return out


# External speech that runs out behind whole frames, all its bytes written. Where the bits end with a whole frame nothing is
# missing; a stop there is taken.
def cut_external_speech():
    out = image(b'\x00') + voice(voices.hushed(2))
    for v, cuts in ((0, {VOICED: (1, 4, 11, 29), UNVOICED: (11, 29), REPEAT: (8, 11), SILENT: (4,), STOPPED: (4,)}),
                    (1, {VOICED: (1, 6, 13), UNVOICED: (31,), REPEAT: (9,), SILENT: (6,), STOPPED: (6,)})):
        for at, (kind, present) in enumerate(pairs(cuts)):
            cut = frame(kind, v)[:present]
            row = before(cut, v, IN_FIFO)
            up, length = powered(at, v)
            out += up + write(SPEAK_EXTERNAL, *pack(''.join(row) + cut)) + run(length * len(row)) + step()
    return out


# The same by states: from one to seven bytes held, none to seven bits of the oldest used. From eight on nothing runs out.
def cut_fifo():
    out = image(b'\x00') + voice(voices.hushed(2))
    for v, cuts in ((0, {VOICED: (5, 2, 12, 23, 35, 41), UNVOICED: (14,), REPEAT: (7,)}),
                    (1, {VOICED: (4, 7, 18, 48), UNVOICED: (20,)})):
        for at, (kind, present) in enumerate(pairs(cuts)):
            used = -present % 8
            device = told(v, at % 4) if at % 2 or v else {}
            out += fifo(pack('1' * used + frame(kind, v)[:present]), used, position=77, **device) + step()
    return out + fifo(pack('1' * 7 + KINDS[VOICED] + '0' * 7), 7) + step()


# A chip that would run out, refused by the voice file, by the image and by its state: no number is told. Nor is one with BEYOND,
# IMAGE and STATE for frames and walks.
def short_refusals():
    data = pack(KINDS[VOICED])[:5]
    out = voice(b'') + image(data) + at_boundary(ROM, position=3) + step() + voice(voices.hushed(2)) + image(b'') + step()
    out += frame_at(0) + walk(0) + rated_frame_at(1, 0) + rated_walk(1, 0, 0) + image(data) + step()
    out += at_boundary(ROM, position=3, nibble=5) + step() + fifo(b'\x1f', 0, **told(2, 0)) + step()
    end = 8 * len(data)
    out += frame_at(end - 1, end, end + 1, 2 ** 32 - 1) + rated_frame_at(1, end - 1, end, end + 1) + rated_frame_at(2, end - 1)
    out += walk(4, 5, 6, 2 ** 32 - 1) + rated_walk(1, 1, 4, 5, 6)
    return out + rated_walk(2, 0, 4) + rated_walk(0, 4, 4)


# The random themes, each once.
def some_of_each_short_theme():
    return b''.join(theme(Pick(40220 + at)) for at, theme in enumerate(themes.OF_CUTS))


SHORT_TOPICS = [cut_example, cut_phrases, cut_rated_phrases, cut_pitches, cut_rom_speech, short_images, cut_external_speech,
                cut_fifo, short_refusals, some_of_each_short_theme]
