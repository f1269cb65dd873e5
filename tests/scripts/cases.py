"""The stored script, topic by topic: calls chosen by hand, each for a rule of document 01 or 02 that it tells from another, and
some of each random theme."""
import states
import themes
import voices
from cases_account import ACCOUNT_TOPICS
from cases_busy import BUSY_TOPICS
from cases_commands import *
from cases_hold import HOLD_TOPICS
from cases_looks import LOOK_TOPICS
from cases_numbers import *
from cases_order import ORDER_TOPICS, first_chip
from cases_rates import RATE_TOPICS
from cases_rom import *
from cases_short import SHORT_TOPICS
from cases_sound import *
from chips import chip
from images import STOP, any_frames, pack
from pick import Pick
from script import *


# State ranges: the edges of each range, inside and outside by one, told by a look, which changes nothing; every third also by an
# acknowledge and a read, every fifth by the other calls.
def state_edges():
    out = image(b'\x00\xff') + voice(voices.soft(2))
    for at, fields in enumerate(fields for edges in states.EDGES for fields in edges):
        out += chip(fields) + look()
        if at % 5 == 0:
            out += step() + run(2) + write(SPEAK)
        if at % 3 == 0:
            out += acknowledge() + read()
    return out


# Voice file: each fault and each edge of one, in a short and in a long file; for each number a step and runs that it refuses.
def voice_faults():
    out = image(b'\x00\xff') + power_up() + write(SPEAK)
    for fault in voices.FAULTS + [voices.two_faults]:
        # the first is a bad one, and comes last
        files = list(fault(voices.plain(3)))
        out += b''.join(voice(data) for data in files[1:] + files[:1]) + step() + run(0, 2)
    # of the long file 63, 65 and 0 pulses, and its own 64
    out += b''.join(voice(data) for data in list(voices.edge_counts(voices.plain(64)))[:4])
    # a valid file is taken whatever its pulse bytes are
    return out + voice(voices.plain(3)[:-3] + b'\x80\x7f\xff')


# The random themes, each once, but for the last, whose runs are long.
def some_of_each_theme():
    return b''.join(theme(Pick(5251 + at)) for at, theme in enumerate(themes.OF_01[:-1]))


# One run of the longest kind: a phrase, its end, silence.
def longest_run():
    data = pack(any_frames(Pick(5200), 8) + STOP)
    return image(data) + voice(voices.soft()) + power_up() + write(SPEAK) + run(LONGEST_RUN) + read()


# numbers_nine_ff leads on from numbers_status, the first topic of the rates from numbers_images, and those of the branches from
# their first; the others begin with what they need
TOPICS = [first_chip, numbers_walks, numbers_addresses, numbers_status, numbers_nine_ff, numbers_nine_00, numbers_seventeenth,
          numbers_voices, order_of_checks, frames_at_bits, walks, loads, restarts, read_bytes, every_command, statuses,
          ninth_byte, fifo_ends, interrupts, external_paces, spoken_kinds, rom_ends, image_changes, boundaries, interpolations,
          excitations, filters, state_edges, voice_faults, some_of_each_theme, longest_run, numbers_images]
TOPICS += RATE_TOPICS + LOOK_TOPICS + HOLD_TOPICS + SHORT_TOPICS + ORDER_TOPICS + BUSY_TOPICS + ACCOUNT_TOPICS


def stored_script():
    script = b''.join(topic() for topic in TOPICS)
    assert len(script) <= MOST_SCRIPT_BYTES
    return script
