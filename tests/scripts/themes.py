"""What a random script is made of: one function for each theme, from a Pick to the bytes of some records."""
import struct

import images
import states
import voices
from script import *
from states import LAST_POSITION


# ---- small parts that several themes use

def some_calls(pick, most=6):
    """A few calls of any kind that leads on from here."""
    out = b''
    for _ in range(pick.between(1, most)):
        kind = pick.below(8)
        if kind == 0:
            out += read()
        elif kind < 3:
            out += step(pick.between(1, 3))
        elif kind < 5:
            out += run(pick.one_of([0, 1, 2, 24, 25, 26, 199, 200, 201, pick.below(450)]))
        elif kind == 5:
            out += write(pick.one_of(COMMANDS) + pick.below(16) + 128 * pick.below(2))
        else:
            out += write(pick.below(256))
    return out


def obeyed(command):
    """A command, and the two samples that a branch takes, so that the next one is obeyed too where the voice file is good."""
    return write(command) + (run(2) if command & 0x70 == READ_AND_BRANCH else b'')


def good_image(pick):
    return image(images.any_image(pick) or b'\xff')


def good_voice(pick):
    return voice(voices.any_voice(pick))


def speak_from(pick, address):
    """The five loads of an address, any top bits, and Speak."""
    nibbles = [address >> 4 * i & 15 for i in range(5)]
    # of the fifth only the two low bits count
    nibbles[4] |= 4 * pick.below(4)
    return write(*[load(nibble) + 128 * pick.below(2) for nibble in nibbles], SPEAK + pick.below(16) + 128 * pick.below(2))


# ---- the themes

# Walks from, and frames at, random addresses and the addresses around the image's end.
def walks_and_frames(pick):
    data = images.any_image(pick, 8)
    end = 8 * len(data)
    out = image(data)
    for _ in range(pick.between(1, 8)):
        near, far = max(end - pick.below(55), 0), 2 ** 21 + pick.below(9)
        out += frame_at(pick.one_of([pick.below(end + 20), near, end, far, 2 ** 32 - 1]))
    for _ in range(pick.between(1, 4)):
        out += walk(pick.one_of([0, pick.below(len(data) + 2), len(data), 2 ** 29, 2 ** 32 - 1]))
    return out


# Phrases at random addresses of one image, some of them damaged, found by the walk and spoken by the chip.
def phrases_at_addresses(pick):
    data, starts = pick.bytes(pick.below(6)), []
    for _ in range(pick.between(1, 4)):
        starts.append(len(data))
        phrase = images.any_phrase(pick, 5)
        data += images.damaged(pick, phrase) if pick.chance(40) else phrase
    data = data or b'\xff'
    out = image(data) + good_voice(pick) + walk(*starts)
    for start in starts:
        out += power_up() + speak_from(pick, start) + step() + run(pick.one_of([199, 198, 200])) + some_calls(pick)
    return out


# A voice file that is bad, or on the edge of it, and the calls that take it.
def bad_voices(pick):
    out = good_image(pick) + state_of(states.any_valid(pick, (0, 200)))
    for _ in range(pick.between(1, 4)):
        out += voice(voices.any_bad(pick)) + pick.one_of([step(), run(0), run(3), read(), step() + run(200)])
    return out + good_voice(pick)


def state_of(fields):
    return state(states.numbers(fields))


# Commands one after another, whatever they do, over an image with something to read, branch to and speak.
def commands(pick):
    out = good_image(pick) + good_voice(pick) + power_up()
    for _ in range(pick.between(4, 30)):
        command = pick.one_of(COMMANDS[:6] + pick.one_of([[], [SPEAK_EXTERNAL], [RESET]]))
        out += obeyed(command + pick.below(16) + 128 * pick.below(2))
        if pick.chance(30):
            out += pick.one_of([read(), read(2), step(), run(200), run(401)])
    return out


# Loads, reads and branches from positions near the end of the image and at edges of its bytes.
def addresses(pick):
    data = images.any_image(pick) or b'\0'
    end = 8 * len(data)
    out = image(data)
    for _ in range(pick.between(1, 4)):
        near, far = max(end - pick.below(18), 0), pick.below(LAST_POSITION)
        position = pick.one_of([pick.below(end + 9), near, end, far, LAST_POSITION])
        out += state_of(states.powered_up(position=position, nibble=pick.below(5), interrupt=pick.below(2)))
        for _ in range(pick.between(1, 8)):
            out += obeyed(pick.one_of([READ_BYTE, READ_AND_BRANCH, load(pick.below(16)), NOTHING, SPEAK_EXTERNAL]))
            out += read(pick.below(2))
    return out


# A phrase spoken from ROM to its end or part of it, with writes that have to wait and a Reset at times.
def rom_speech(pick):
    before = pick.bytes(pick.below(4))
    data = before + images.pack(images.any_frames(pick, pick.below(6)) + (images.STOP if pick.chance(80) else ''))
    out = image(data or b'\0') + good_voice(pick) + power_up() + speak_from(pick, len(before))
    for _ in range(pick.between(1, 12)):
        length = pick.one_of([25, 175, 198, 199, 200, pick.below(420)])
        out += pick.one_of([step(), step(), read(), run(length), run(length), write(pick.below(256))])
    return out + pick.one_of([b'', write(RESET) + step(), run(1200)])


# External speech: bytes come faster than they are taken, or slower; cut anywhere; with stops inside.
def external_speech(pick):
    text = ''
    for _ in range(pick.between(1, 3)):
        text += images.any_frames(pick, pick.below(6)) + (images.STOP if pick.chance(60) else '')
    # too fast: hardly a step between bytes; too slow: more samples than the bytes are worth
    often, most = pick.one_of([(2, 10), (15, 260), (40, 120), (50, 500)])
    out = good_image(pick) + good_voice(pick) + power_up() + write(SPEAK_EXTERNAL)
    for byte in images.pack(text, pick.one_of('01')) + pick.bytes(pick.below(12)):
        out += write(byte)
        if pick.chance(often):
            out += pick.one_of([step(), read(), run(pick.below(most + 1))])
    return out + some_calls(pick, 8) + pick.one_of([b'', run(1000), run(4000)])


# Valid states that no list of calls leads to, and calls on them.
def unreachable_states(pick):
    out = good_image(pick) + (good_voice(pick) if pick.chance(40) else b'')
    for _ in range(pick.between(1, 4)):
        out += state_of(states.any_valid(pick, (0, 300)))
        out += pick.one_of([step(2), run(1), run(26), write(pick.below(256)), read()]) + some_calls(pick)
    return out


# States with a field out of its range, each taken by every call that takes a state.
def broken_states(pick):
    out = good_image(pick)
    for _ in range(pick.between(1, 4)):
        broken = states.any_broken(pick) if pick.chance(50) else pick.one_of(pick.one_of(states.EDGES))
        out += state_of(broken)
        out += pick.one_of([read(), step(), run(0), run(7), write(pick.below(256)), write(RESET), read() + step() + write(0)])
    return out


# The image changes between calls: shorter, longer, other bytes, none.
def changing_images(pick):
    data = images.any_phrase(pick, 6)
    out = image(data) + good_voice(pick) + power_up() + speak_from(pick, 0)
    for _ in range(pick.between(2, 7)):
        shorter, longer = data[:pick.below(len(data) + 1)], data + pick.bytes(pick.between(1, 9))
        out += pick.one_of([run(199), run(200), step(), run(pick.below(250))])
        out += image(pick.one_of([shorter, longer, images.any_image(pick), b'', data[:1]])) + some_calls(pick, 3)
        if pick.chance(30):
            out += image(data) + write(SPEAK)
    return out


# Several faults at once, of which the first in the order of checks is answered.
def several_faults(pick):
    out = b''
    for _ in range(pick.between(1, 4)):
        out += image(pick.one_of([b'', b'\xff', images.any_image(pick)]))
        out += voice(pick.one_of([b'', voices.any_voice(pick), voices.any_bad(pick)]))
        out += state_of(states.any_broken(pick) if pick.chance(60) else states.any_valid(pick, (0, 100)))
        out += pick.one_of([step(), run(0), run(5), write(pick.below(256)), read() + walk(0, 1) + frame_at(0, 8)])
    return out


# Long runs: a phrase, silence after it, and the longest run there may be.
def long_runs(pick):
    data = images.pack(images.any_frames(pick, pick.between(5, 60)) + images.STOP)
    out = image(data) + good_voice(pick) + power_up() + write(SPEAK)
    for _ in range(pick.between(1, 3)):
        out += run(pick.one_of([LONGEST_RUN, pick.below(LONGEST_RUN + 1), 4000])) + read()
    return out


# Images of 262,144 bytes and one more, read, branched, walked and spoken at their end and across 16,384-byte chips.
def largest_images(pick):
    size = images.MOST_IMAGE_BYTES + pick.below(2) - pick.below(2)
    tail = images.any_phrase(pick, 4)
    data = pick.bytes(size - len(tail)) + tail
    out = image(data) + good_voice(pick)
    for _ in range(pick.between(20, 60)):
        near, across = size - pick.between(1, 40), 16384 * pick.between(1, 15) - pick.below(3)
        address = pick.one_of([size - len(tail), near, across, pick.below(size)])
        speech = write(SPEAK) + step() + run(200, 200) + read()
        out += power_up() + load_address(address)
        out += pick.one_of([write(READ_BYTE, READ_BYTE) + read(), branch() + write(READ_BYTE), speech])
        out += walk(address) + frame_at(min(8 * address + pick.below(60), 2 ** 32 - 1))
    # the image changes under a speaking chip, to one of the other kind and to a short one
    other = bytes(2 * images.MOST_IMAGE_BYTES + 1 - size)
    out += power_up() + speak_from(pick, pick.below(size)) + run(pick.below(400)) + image(other) + some_calls(pick) + walk(0)
    return out + good_image(pick) + some_calls(pick)


OF_01 = [walks_and_frames, phrases_at_addresses, bad_voices, commands, addresses, rom_speech, external_speech,
         unreachable_states, broken_states, changing_images, several_faults, long_runs]


# ---- the TMS5220C

# lengths of runs around the ends of intervals and of frames of each rate
RATED_LENGTHS = [24, 25, 49, 50, 51, 75, 98, 99, 100, 101, 149, 150, 151, 198, 199, 200]


def rate_byte(pick):
    """Load Frame Rate, any free bits."""
    return frame_rate(pick.below(2), pick.below(4)) + pick.one_of([0, 0x08, 0x20, 0x28]) + 128 * pick.below(2)


def set_rate(pick, v, rr):
    """The same with this v and rr."""
    return write(rate_byte(pick) & 0xF8 | frame_rate(v, rr))


def any_v(pick):
    return pick.one_of([0, 1, 1, 1, 2, 255, pick.below(256)])


def any_rr(pick):
    return pick.one_of([0, 1, 2, 3, 4, 255, pick.below(256)])


def rated_calls(pick, most):
    """Steps, runs across the ends of short frames, reads, and a written byte, most often Load Frame Rate."""
    out = b''
    for _ in range(pick.between(1, most)):
        length = pick.one_of(RATED_LENGTHS + [pick.below(420)])
        byte = pick.one_of([rate_byte(pick), rate_byte(pick), pick.below(256)])
        out += pick.one_of([step(), step(2), read(), run(length), run(length), run(length), write(byte)])
    return out


def on_tms5220c(pick, script):
    """The same records for the TMS5220C: its power-up, a rate for each state, v and rr told to frames and walks."""
    out = b''
    for start, end, letter, _ in records(script):
        record = script[start:end]
        if letter == b'O':
            record = power_up_c() + (write(rate_byte(pick)) if pick.chance(70) else b'')
        elif letter == b'S':
            rates = states.any_broken_rates(pick) if pick.chance(8) else states.any_rates(pick)
            record = with_fields(record, **rates)
        elif letter == b'F':
            record = b'G' + bytes([any_v(pick)]) + record[1:]
        elif letter == b'A':
            record = b'B' + bytes([any_v(pick), any_rr(pick)]) + record[1:]
        out += record
    return out


def with_fields(record, **fields):
    """An S record with these fields changed."""
    for name, value in fields.items():
        at = 1 + 8 * states.FIELDS.index(name)
        record = record[:at] + struct.pack('<q', value) + record[at + 8:]
    return record


# Any of the themes above on the TMS5220C. Their images have no rate bits; with v = 1 other frames are read from them.
def themes_of_01(pick):
    return on_tms5220c(pick, pick.one_of(OF_01)(pick))


# Phrases with rate bits, whole and damaged, walked and spoken with v = 1, and at times with v = 0.
def rated_phrases(pick):
    data, starts = pick.bytes(pick.below(4)), []
    for _ in range(pick.between(1, 3)):
        starts.append(len(data))
        phrase = images.any_rated_phrase(pick, 5)
        data += images.damaged(pick, phrase) if pick.chance(40) else phrase
    data = data or b'\xff'
    out = image(data) + good_voice(pick)
    for start in starts + [pick.below(len(data) + 1)]:
        near = max(8 * len(data) - pick.below(55), 0)
        out += rated_walk(pick.one_of([1, 1, 1, 0]), pick.below(4), start)
        out += rated_frame_at(pick.one_of([1, 1, 0]), 8 * start, 8 * start + pick.below(60), near)
    for start in starts:
        rate = set_rate(pick, pick.one_of([1, 1, 1, 0]), pick.below(4))
        # the rate may be loaded before the address and behind it
        before, after = pick.one_of([(rate, b''), (rate, b''), (write(rate_byte(pick)), rate)])
        out += power_up_c() + before + load_address(start) + after + write(SPEAK) + step() + rated_calls(pick, 8)
    return out


# Speech from ROM at one rate or at the frames' own, to its end; Load Frame Rate in the stop's frame; Speak again.
def rated_rom_speech(pick):
    v, rr = pick.below(2), pick.below(4)
    count = pick.below(6)
    text = images.any_rated_frames(pick, count) if v else images.any_frames(pick, count)
    if pick.chance(80):
        text += images.rated(pick.below(4), images.STOP) if v else images.STOP
    out = image(images.pack(text) or b'\0') + good_voice(pick) + power_up_c() + set_rate(pick, v, rr) + write(SPEAK)
    out += step() + rated_calls(pick, 12)
    out += pick.one_of([b'', run(1200), run(600) + write(rate_byte(pick)) + rated_calls(pick, 3)])
    again = load_address(0) + write(rate_byte(pick), SPEAK) + rated_calls(pick, 4)
    return out + pick.one_of([b'', write(RESET) + step(), again])


# External speech at one rate or at the frames' own, fed too fast or too slow.
def rated_external_speech(pick):
    v, rr = pick.below(2), pick.below(4)
    text = ''
    for _ in range(pick.between(1, 3)):
        count = pick.below(6)
        text += images.any_rated_frames(pick, count) if v else images.any_frames(pick, count)
        if pick.chance(50):
            text += images.rated(pick.below(4), images.STOP) if v else images.STOP
    often, most = pick.one_of([(2, 10), (15, 150), (40, 60), (50, 250)])
    out = good_image(pick) + good_voice(pick) + power_up_c() + set_rate(pick, v, rr) + write(SPEAK_EXTERNAL)
    for byte in images.pack(text, pick.one_of('01')) + pick.bytes(pick.below(12)):
        out += write(byte)
        if pick.chance(often):
            out += pick.one_of([step(), read(), run(pick.below(most + 1))])
    return out + rated_calls(pick, 8) + pick.one_of([b'', run(1000), run(4000)])


# Load Frame Rate among the other commands, on both devices.
def rate_commands(pick):
    out = good_image(pick) + good_voice(pick) + pick.one_of([power_up_c(), power_up_c(), power_up_c(), power_up()])
    for _ in range(pick.between(4, 30)):
        command = pick.one_of([READ_BYTE, READ_AND_BRANCH, load(0), SPEAK, RESET, pick.one_of([RESET, SPEAK_EXTERNAL])])
        out += obeyed(pick.one_of([rate_byte(pick), command + pick.below(16) + 128 * pick.below(2)]))
        if pick.chance(30):
            out += pick.one_of([read(), read(2), step(), run(pick.one_of(RATED_LENGTHS)), run(401)])
    return out


# States of the TMS5220C, valid and not, before the ends of frames of each rate.
def rate_states(pick):
    data = images.any_rated_phrase(pick, 4)
    out = image(data) + (good_voice(pick) if pick.chance(40) else b'')
    for _ in range(pick.between(1, 3)):
        fields = {**states.any_valid(pick, (0, 8 * len(data))), **states.any_rates(pick)}
        if fields['sounding'] and pick.chance(60):
            fields.update({'sample': pick.one_of([0, 24]), 'interval': pick.below(8)})
        if pick.chance(25):
            fields.update(states.any_broken_rates(pick))
        out += state_of(fields) + pick.one_of([step(2), run(pick.one_of(RATED_LENGTHS)), read()]) + rated_calls(pick, 5)
    return out


# Frames and walks that are told any v and rr, with and without a fault of the image and of the place.
def told_rates(pick):
    data = pick.one_of([b'', images.any_rated_phrase(pick, 3), images.any_image(pick)])
    out = image(data)
    for _ in range(pick.between(2, 10)):
        place = pick.one_of([0, pick.below(len(data) + 2), len(data), 2 ** 32 - 1])
        bit = pick.one_of([8 * place, pick.below(8 * len(data) + 3), 2 ** 32 - 1]) % 2 ** 32
        out += rated_walk(any_v(pick), any_rr(pick), place) + rated_frame_at(any_v(pick), bit)
    return out


# The longest runs over many short frames.
def long_rated_runs(pick):
    data = images.pack(images.any_rated_frames(pick, pick.between(20, 100)) + images.rated(pick.below(4), images.STOP))
    out = image(data) + good_voice(pick) + power_up_c() + set_rate(pick, 1, pick.below(4)) + write(SPEAK)
    for _ in range(pick.between(1, 2)):
        out += run(pick.one_of([LONGEST_RUN, pick.below(LONGEST_RUN + 1), 4000])) + read()
    return out + rated_walk(1, 0, 0)


OF_RATES = [themes_of_01, rated_phrases, rated_rom_speech, rated_external_speech, rate_commands, rate_states, told_rates,
            long_rated_runs]


# ---- look and acknowledge

def any_looks(pick, most):
    """A few looks, acknowledges and reads."""
    return b''.join(pick.one_of([look(), look(), acknowledge(), read()]) for _ in range(pick.between(1, most)))


def with_looks(pick, script):
    """The same records with looks and acknowledges behind them, most often behind a state, and look and acknowledge for a
    read; or with looks alone, which change nothing."""
    acknowledges = pick.chance(70)
    often = pick.one_of([10, 30, 60])
    out = b''
    for start, end, letter, _ in records(script):
        out += look() + acknowledge() if letter == b'R' and pick.chance(30) else script[start:end]
        if pick.chance(80 if letter == b'S' else often):
            out += pick.one_of([look(), look(), acknowledge(), look() + acknowledge()]) if acknowledges else look()
    return out


# Any of the themes above, looked at.
def looks_in_themes(pick):
    return with_looks(pick, pick.one_of(OF_01 + OF_RATES)(pick))


# States of both devices, valid and damaged, with and without data and the interrupt, whatever image and voice file there are.
def looks_at_states(pick):
    out = pick.one_of([b'', image(b''), good_image(pick)])
    for _ in range(pick.between(1, 4)):
        fields = states.any_broken(pick) if pick.chance(50) else states.any_valid(pick, (0, 300))
        # outside idle this is out of range
        if pick.chance(30):
            fields.update({'pending': 1, 'data': pick.edge(0, 255), 'interrupt': 1})
        if pick.chance(50):
            fields.update(states.any_broken_rates(pick) if pick.chance(25) else states.any_rates(pick))
        out += state_of(fields) + any_looks(pick, 6)
    return out


# Read Byte and other commands, looks between them and before the read.
def looks_at_data(pick):
    out = good_image(pick) + pick.one_of([power_up(), power_up_c()])
    for _ in range(pick.between(4, 20)):
        byte = pick.one_of([READ_BYTE, READ_BYTE, READ_BYTE, load(pick.below(16)), READ_AND_BRANCH, NOTHING, pick.below(256)])
        out += obeyed(byte + 128 * pick.below(2) & 255) + (any_looks(pick, 3) if pick.chance(70) else b'')
    return out


# External speech before a frame that makes BL or BE rise or TS fall.
def looks_at_interrupts(pick):
    out = good_image(pick) + good_voice(pick)
    for _ in range(pick.between(1, 3)):
        level = pick.one_of([1, 2, 8, 9, 9, 10, 16])
        data = {states.FIFO[i]: pick.one_of([0, 255, pick.below(256)]) if i < level else 0 for i in range(states.FIFO_BYTES)}
        place = {'level': level, 'used': pick.below(8), 'sample': 0, 'interval': 0, 'interrupt': pick.below(2)}
        fields = states.in_mode(states.EXTERNAL, **data, **place)
        if pick.chance(50):
            fields.update(states.any_rates(pick))
        out += state_of(fields)
        for _ in range(pick.between(1, 4)):
            out += any_looks(pick, 2) + pick.one_of([step(), step(), run(200), run(pick.below(60)), write(pick.below(256))])
    return out + any_looks(pick, 2)


OF_LOOKS = [looks_in_themes, looks_at_states, looks_at_data, looks_at_interrupts]


# ---- frames that hold

def changing_speech(pick, v, most):
    """Frames that hold oftener than not, with rate bits if v is 1, most often with a stop behind them."""
    text = images.any_changing_frames(pick, pick.between(1, most), v == 1)
    if pick.chance(70):
        text += images.rated(pick.below(4), images.STOP) if v else images.STOP
    return text


def any_device(pick):
    """v, and a powered-up chip: a TMS5220, or a TMS5220C at any rate."""
    v, rr = pick.below(2), pick.below(4)
    if pick.chance(40):
        return 0, power_up()
    return v, power_up_c() + set_rate(pick, v, rr)


def hushed_voice(pick):
    return voice(pick.one_of([voices.hushed(), voices.any_voice(pick)]))


def with_holds(pick, script):
    """The same records, in whose states the frame holds at times; a chip that does not sound then breaks a range."""
    out = b''
    for start, end, letter, _ in records(script):
        record = script[start:end]
        if letter == b'S' and pick.chance(60):
            record = with_fields(record, hold=1)
        out += record
    return out


# Any of the themes above with states that hold.
def holds_in_themes(pick):
    return with_holds(pick, pick.one_of(OF_01 + OF_RATES + OF_LOOKS)(pick))


# Frames that change, spoken from ROM, interval by interval at times.
def changing_rom_speech(pick):
    v, up = any_device(pick)
    text = changing_speech(pick, v, 8)
    out = image(images.pack(text)) + hushed_voice(pick) + up + write(SPEAK)
    if pick.chance(30):
        out += (step() + run(24)) * pick.between(4, 24)
    return out + step() + rated_calls(pick, 12) + pick.one_of([b'', run(900), write(RESET) + step()])


# The same from the FIFO, fed too fast or too slow.
def changing_external_speech(pick):
    v, up = any_device(pick)
    often, most = pick.one_of([(2, 10), (15, 200), (40, 80)])
    out = good_image(pick) + hushed_voice(pick) + up + write(SPEAK_EXTERNAL)
    for byte in images.pack(changing_speech(pick, v, 7)) + pick.bytes(pick.below(9)):
        out += write(byte)
        if pick.chance(often):
            out += pick.one_of([step(), run(pick.below(most + 1))])
    return out + rated_calls(pick, 6) + pick.one_of([b'', run(1500)])


# States in every mode whose frame holds or not, before frames that change and commands; not sounding, holding is out of range.
def hold_states(pick):
    v = pick.below(2)
    data = images.pack(changing_speech(pick, v, 5))
    out = image(data) + hushed_voice(pick)
    for _ in range(pick.between(1, 4)):
        fields = states.any_valid(pick, (0, 8 * len(data)))
        if fields['sounding']:
            fields.update(states.any_held_sound(pick))
        elif pick.chance(40):
            fields['hold'] = 1
        if v or pick.chance(50):
            fields.update({**states.any_rates(pick), 'v': v})
        command = pick.one_of([SPEAK_EXTERNAL, SPEAK, RESET, READ_BYTE, rate_byte(pick)])
        calls = [step(2), step() + run(24) + step(), run(pick.one_of(RATED_LENGTHS)), any_looks(pick, 3)]
        calls += [calls[0], calls[1], write(command) + step()]
        out += state_of(fields) + pick.one_of(calls) + rated_calls(pick, 4)
    return out


# Long runs over many frames that change.
def long_changing_runs(pick):
    v, up = any_device(pick)
    text = changing_speech(pick, v, 60)
    out = image(images.pack(text)) + hushed_voice(pick) + up + write(SPEAK)
    return out + run(pick.one_of([LONGEST_RUN, pick.below(LONGEST_RUN + 1), 4000])) + read()


OF_HOLDS = [holds_in_themes, changing_rom_speech, changing_external_speech, hold_states, long_changing_runs]


# ---- frames that are cut

def any_told_device(pick):
    """v, rr, and a powered-up chip that has them; a TMS5220 has 0 and 0."""
    v, rr = pick.below(2), pick.below(4)
    if pick.chance(40):
        return 0, 0, power_up()
    return v, rr, power_up_c() + set_rate(pick, v, rr)


def cut_speech(pick, v, rr, most):
    """Whole frames and a cut one: their bytes, the bit at which the cut one begins, and the samples of each that is whole."""
    cut = images.any_cut(pick, v)
    row = images.any_row(pick, v, len(cut), most)
    text = ''.join(images.rated(rate, frame) if v else frame for rate, frame in row)
    lengths = [200 - 50 * (rate if v else rr) for rate, _ in row]
    return images.pack(text + cut), len(text), lengths


# Phrases that are cut, behind a few bytes or none, taken at bits, walked, and walked from elsewhere.
def cut_phrases(pick):
    v, rr = pick.below(2), pick.below(4)
    data, begun, _ = cut_speech(pick, v, rr, 3)
    address = pick.below(4)
    out = image(pick.bytes(address) + data)
    bits = [8 * address + begun, 8 * address + begun, 8 * address + pick.below(8 * len(data) + 2)]
    for bit in bits:
        out += rated_frame_at(v, bit) if v or pick.chance(40) else frame_at(bit)
    for place in (address, address, pick.below(address + len(data) + 2)):
        out += rated_walk(v, rr, place) if v or pick.chance(40) else walk(place)
    return out


# ROM speech up to a cut frame, its step called alone or in a run; at times the image is exchanged before it.
def cut_rom_speech(pick):
    v, rr, up = any_told_device(pick)
    data, _, lengths = cut_speech(pick, v, rr, 2)
    address = pick.below(3)
    data = pick.bytes(address) + data
    out = image(data or b'\0') + good_voice(pick) + up + load_address(address) + write(SPEAK)
    out += run(sum(lengths)) if lengths else b''
    if pick.chance(30):
        out += image(pick.one_of([data[:pick.below(len(data) + 1)], data + pick.bytes(1), pick.bytes(2)]))
    return out + pick.one_of([step(), step(2), step() + read(), run(2)]) + (rated_calls(pick, 2) if pick.chance(30) else b'')


# External speech up to a cut frame, or up to a whole one that ends with the last byte.
def cut_external_speech(pick):
    v, rr, up = any_told_device(pick)
    data, begun, lengths = cut_speech(pick, v, rr, 3)
    while not 9 <= len(data) <= states.FIFO_BYTES:
        data, begun, lengths = cut_speech(pick, v, rr, 3)
    out = good_image(pick) + good_voice(pick) + up + write(SPEAK_EXTERNAL, *data)
    # with no bit of a cut frame the last whole one runs out
    out += run(sum(lengths[:-1] if begun == 8 * len(data) else lengths)) + step()
    return out + (rated_calls(pick, 2) if pick.chance(30) else b'')


# States before a frame: the position near the image's end, at it and past it; from one to seven bytes in the FIFO, of which a
# frame is cut or ends with the last bit.
def cut_states(pick):
    v, device = pick.below(2), {}
    if v or pick.chance(50):
        device = {'device': states.TMS5220C, 'v': v, 'rr': pick.below(4)}
    data, begun, _ = cut_speech(pick, v, 0, 1)
    end = 8 * len(data)
    out = image(data or b'\0') + (good_voice(pick) if pick.chance(40) else b'')
    for _ in range(pick.between(1, 3)):
        fields = {**states.any_sound(pick), 'sample': 0, 'interval': 0, 'interrupt': pick.below(2), **device}
        if pick.chance(40):
            far = pick.one_of([end, end + pick.below(20), LAST_POSITION, max(end - pick.below(55), 0)])
            fields.update({'mode': states.ROM, 'position': pick.one_of([begun, begun, far])})
        else:
            frame = images.any_frame(pick)
            text = images.any_cut(pick, v) or '1'
            text = pick.one_of([text, text, text, images.rated(pick.below(4), frame) if v else frame])
            used = -len(text) % 8
            held = images.pack(pick.one_of('01') * used + text)
            fields.update({states.FIFO[i]: byte for i, byte in enumerate(held)})
            fields.update({'mode': states.EXTERNAL, 'level': len(held), 'used': used, 'position': pick.below(end + 9)})
        out += state_of(states.powered_up(**fields)) + pick.one_of([step(), step(), step(2), run(1)])
    return out


OF_CUTS = [cut_phrases, cut_rom_speech, cut_external_speech, cut_states]


# ---- the FIFO's bit order

def plain_power_up_of(device):
    return plain_power_up_c() if device == TMS5220C else plain_power_up()


def any_power_up(pick):
    """Device, order and record of any power-up, plain or with an order."""
    device, order = pick.below(2), pick.below(2)
    if pick.chance(30):
        return device, LEAST_FIRST, plain_power_up_of(device)
    return device, order, power_up_with(device, order)


def least_first(record, turn):
    """An S record with the other order; the bytes of its FIFO turned round with it, or as they are."""
    fields = dict(zip(states.FIELDS, struct.unpack(f'<{CHIP_NUMBERS}q', record[1:])))
    turned = {name: images.turned(bytes([fields[name]]))[0] for name in states.FIFO} if turn else {}
    return state_of({**fields, **turned, 'order': LEAST_FIRST})


def in_order(pick, script):
    """The same records, least significant bit first: each power-up, plain at times, and each state. Bytes behind Speak External
    are turned round, so that the speech stays the same, or are not, which makes another speech of it."""
    turn, external, out = pick.chance(70), False, b''
    for start, end, letter, _ in records(script):
        record = script[start:end]
        if letter == b'O':
            record = pick.one_of([power_up_with(record[1], LEAST_FIRST), plain_power_up_of(record[1])])
            external = False
        elif letter == b'S':
            external = record[1] in (states.WAITING, states.EXTERNAL)
            record = least_first(record, turn)
        elif letter == b'W' and external and turn:
            record = write(*images.turned(record[1:]))
        elif letter == b'W' and record[1] & 0x70 == SPEAK_EXTERNAL:
            external = True
        out += record
    return out


# Any of the themes above, least significant first.
def themes_in_order(pick):
    return in_order(pick, pick.one_of(OF_01 + OF_RATES + OF_LOOKS + OF_HOLDS + OF_CUTS)(pick))


# External speech on any power-up, fed in its order, too fast or too slow; another speech behind it, and behind a Reset.
def ordered_external_speech(pick):
    device, order, up = any_power_up(pick)
    # a TMS5220 takes no notice of the rate
    v = pick.below(2) if device == TMS5220C else 0
    out = good_image(pick) + good_voice(pick) + up + set_rate(pick, v, pick.below(4))
    for _ in range(pick.between(1, 2)):
        text = changing_speech(pick, v, 6)
        often, most = pick.one_of([(2, 10), (15, 200), (40, 80)])
        out += write(SPEAK_EXTERNAL)
        for byte in images.fed(order, text, pick.one_of('01')) + pick.bytes(pick.below(9)):
            out += write(byte) + (pick.one_of([step(), look(), run(pick.below(most + 1))]) if pick.chance(often) else b'')
        out += rated_calls(pick, 4) + pick.one_of([b'', run(1500), run(400) + write(RESET)])
    return out


# States of external speech in both orders, with any used bits, before a frame's first sample, and calls on them.
def order_states(pick):
    out = good_image(pick) + (hushed_voice(pick) if pick.chance(40) else b'')
    for _ in range(pick.between(1, 3)):
        order, v, used = pick.below(2), pick.below(2), pick.below(8)
        device = {'device': states.TMS5220C, 'v': v, 'rr': pick.below(4)} if v or pick.chance(50) else {}
        text = pick.one_of('01') * used + changing_speech(pick, v, 3)
        data = images.fed(order, text, pick.one_of('01'))[:states.FIFO_BYTES]
        fields = {**states.any_sound(pick), 'sample': 0, 'interval': 0, 'order': order, **device}
        fields.update({states.FIFO[i]: byte for i, byte in enumerate(data)})
        fields.update({'mode': states.EXTERNAL, 'level': len(data), 'used': used, 'position': pick.below(99)})
        # now and then a range is broken
        if pick.chance(15):
            fields.update(pick.one_of([{'used': 8}, {'level': 17}, {'nibble': 5}, {'sounding': 0}, {'mode': states.WAITING}]))
        out += state_of(states.powered_up(**fields)) + pick.one_of([step(2), step(), run(201), look()]) + rated_calls(pick, 3)
    return out


# Power-ups of every kind among commands, Speak External and a few bytes.
def order_commands(pick):
    out = good_image(pick) + (good_voice(pick) if pick.chance(50) else b'')
    for _ in range(pick.between(2, 8)):
        _, order, up = any_power_up(pick)
        out += up
        for _ in range(pick.below(6)):
            out += obeyed(pick.one_of(COMMANDS) + pick.below(16) + 128 * pick.below(2))
            out += some_calls(pick, 2) if pick.chance(30) else b''
        if pick.chance(40):
            out += write(SPEAK_EXTERNAL, *images.fed(order, images.any_frames(pick, 4))) + step() + some_calls(pick, 2)
    return out


OF_ORDERS = [themes_in_order, ordered_external_speech, order_states, order_commands]


# ---- the time that a branch takes

def branch_byte(pick):
    """Read and Branch, any free bits."""
    return READ_AND_BRANCH + pick.below(16) + 128 * pick.below(2)


def any_pause(pick, most):
    """What may stand behind a branch: steps, short runs, looks and reads, bytes that have to wait if it is too early for them."""
    out = b''
    for _ in range(pick.below(most + 1)):
        byte = pick.one_of([READ_AND_BRANCH, RESET, SPEAK, load(0), rate_byte(pick), pick.below(256)])
        out += pick.one_of([step(), step(), run(pick.below(4)), run(pick.one_of([0, 1, 2, 25])), any_looks(pick, 2), write(byte)])
    return out


def with_branches(pick, script):
    """The same records with branches behind them at times, and states that are busy; outside idle that is out of range."""
    often = pick.one_of([4, 12, 30])
    out = b''
    for start, end, letter, _ in records(script):
        record = script[start:end]
        if letter == b'S' and pick.chance(70):
            record = with_fields(record, busy=states.any_busy(pick, record[1]))
        out += record
        if pick.chance(often):
            out += write(branch_byte(pick)) + any_pause(pick, 4)
    return out


# Any of the themes above with branches that take their time.
def branches_in_themes(pick):
    return with_branches(pick, pick.one_of(OF_01 + OF_RATES + OF_LOOKS + OF_HOLDS + OF_CUTS)(pick))


# An image with a table of words in front: the address of an entry, a branch, a pause, Speak. At times it comes too early, and
# once more after two samples.
def word_tables(pick):
    v, up = any_device(pick)
    count = pick.between(1, 4)
    words, data = b'', b''
    for _ in range(count):
        # of a word's sixteen bits fourteen count
        words += struct.pack('<H', 2 * count + len(data) + 16384 * pick.below(4))
        data += images.any_rated_phrase(pick, 3) if v else images.any_phrase(pick, 3)
    out = image(words + data) + hushed_voice(pick) + up
    for _ in range(pick.between(1, 4)):
        # an address in the middle of an entry, or behind the table, now and then
        address = pick.one_of([2 * pick.below(count)] * 5 + [pick.below(len(words + data))])
        out += load_address(address) + write(branch_byte(pick)) + any_pause(pick, 3)
        out += pick.one_of([b'', step(2), run(2)]) + write(SPEAK) + pick.one_of([b'', run(2) + write(SPEAK)]) + step()
        out += rated_calls(pick, 3) + pick.one_of([run(900), write(RESET), run(300)])
    return out


# A branch while the frame of a stop sounds, often across the end of an interval or of the frame; bytes at each sample, as a host
# writes them that tries again until one is taken.
def branches_in_stops(pick):
    v, rr, up = any_told_device(pick)
    rates = [pick.below(4) if v else rr for _ in range(pick.between(1, 3))]
    row = [images.any_changing_frames(pick, 1, False) for _ in rates[1:]] + [images.STOP]
    text = ''.join(images.rated(rate, frame) if v else frame for rate, frame in zip(rates, row))
    lengths = [200 - 50 * rate for rate in rates]
    # two words that lead to each other
    out = image(b'\x02\x00\x00\x40' + images.pack(text, pick.one_of('01'))) + hushed_voice(pick)
    for _ in range(pick.between(1, 3)):
        last = lengths[-1]
        samples = pick.one_of([0, 22, 23, 24, last - 3, last - 2, last - 1, last, pick.below(last)])
        out += up + load_address(4) + write(SPEAK) + run(sum(lengths[:-1])) + step() + run(samples)
        out += load_address(2 * pick.below(2)) + write(branch_byte(pick))
        byte = pick.one_of([READ_BYTE, SPEAK, NOTHING, load(0), RESET, READ_AND_BRANCH, pick.below(256)])
        out += pick.one_of([(write(byte) + step()) * 4, any_pause(pick, 5), run(pick.below(4)) + write(byte)])
    return out


# States that are busy or not, valid or not, before the ends of intervals and frames, and calls on them; with an image that is
# empty and a voice file that is bad at times.
def busy_states(pick):
    out = good_image(pick) + (hushed_voice(pick) if pick.chance(40) else b'')
    for _ in range(pick.between(1, 4)):
        fields = states.any_valid(pick, (0, 200))
        # the mode that may be busy, more often than the others
        if fields['mode'] != states.IDLE and pick.chance(60):
            fields = states.powered_up(position=pick.below(99), nibble=pick.below(5), interrupt=pick.below(2))
        if fields['sounding'] and pick.chance(60):
            fields.update({'sample': pick.one_of([0, 23, 24]), 'interval': pick.one_of([0, 7, pick.below(8)])})
        if pick.chance(40):
            fields.update(states.any_rates(pick))
        fields['busy'] = states.any_busy(pick, fields['mode'])
        out += state_of(fields) + any_looks(pick, 2)
        if pick.chance(15):
            out += pick.one_of([image(b''), voice(b'')]) + step() + run(pick.below(4)) + write(pick.below(256))
            out += good_image(pick) + hushed_voice(pick)
        out += any_pause(pick, 4) + write(pick.below(256)) + pick.one_of([b'', step(2) + write(branch_byte(pick))])
        out += any_pause(pick, 3)
    return out


OF_BUSY = [branches_in_themes, word_tables, branches_in_stops, busy_states]


# ---- the account of the FIFO's bits

def any_stop_speech(pick, v, rr):
    """Some frames and a stop, or none at times, and the samples of each frame before it."""
    rates = [pick.below(4) if v else rr for _ in range(pick.between(1, 4))]
    row = [images.any_changing_frames(pick, 1, False) for _ in rates[1:]]
    row.append(images.STOP if pick.chance(75) else images.any_frame(pick))
    text = ''.join(images.rated(rate, frame) if v else frame for rate, frame in zip(rates, row))
    return text, [200 - 50 * rate for rate in rates[:-1]]


# Speeches one after another on any power-up, each up to its stop, with any number of bytes behind it; more bytes than the FIFO
# takes, refused steps, a stop from ROM and other commands between them.
def fifo_stops(pick):
    device, order, up = any_power_up(pick)
    out = image(images.pack(images.STOP, '1')) + hushed_voice(pick) + up
    for _ in range(pick.between(1, 5)):
        v, rr = pick.below(2) if device == TMS5220C else 0, pick.below(4)
        text, lengths = any_stop_speech(pick, v, rr if device == TMS5220C else 0)
        data = images.fed(order, text, pick.one_of('01'))
        data += pick.one_of([bytes(17), pick.bytes(17)])[:max(pick.between(9, 17) - len(data), 0)]
        out += set_rate(pick, v, rr) + write(SPEAK_EXTERNAL, *data[:17])
        for length in lengths:
            out += pick.one_of([run(length), run(length), step() + run(length - 1)])
            out += write(*data[17:]) if pick.chance(30) else b''
        out += pick.one_of([b'', b'', b'', voice(b'') + step() + run(1) + hushed_voice(pick)])
        out += pick.one_of([step(), step(), step(2), step(), run(2)])
        # what may come before the next speech
        from_rom = load_address(0) + write(SPEAK) + step(2)
        out += pick.one_of([b'', run(pick.below(210)), from_rom, write(RESET), rated_calls(pick, 3)])
    return out


# States of external speech with a stop next, in both orders, with any used bits and any number of bytes behind it.
def stop_states(pick):
    out = good_image(pick) + (hushed_voice(pick) if pick.chance(40) else b'')
    for _ in range(pick.between(1, 3)):
        order, v, used = pick.below(2), pick.below(2), pick.below(8)
        device = {'device': states.TMS5220C, 'v': v, 'rr': pick.below(4)} if v or pick.chance(50) else {}
        text = pick.one_of('01') * used + (images.rated(pick.below(4), images.STOP) if v else images.STOP)
        data = images.fed(order, text, pick.one_of('01')) + pick.one_of([bytes(14), pick.bytes(14)])[:pick.below(15)]
        fields = {'mode': states.EXTERNAL, 'sounding': 1, 'level': len(data), 'used': used, 'order': order, **device}
        fields.update({states.FIFO[i]: byte for i, byte in enumerate(data)})
        # a range that is broken, or a frame that is not over
        if pick.chance(20):
            fields.update(pick.one_of([{'nibble': 5}, {'busy': 1}, {'sample': 24, 'interval': 7}, {'mode': states.WAITING}]))
        out += state_of(states.powered_up(**fields)) + pick.one_of([step(2), step(), run(1), write(pick.below(256)) + step()])
    return out


OF_BITS = [fifo_stops, stop_states]


def weighed(of, often):
    """A list of themes of the length of the first one; the theme that stands for many comes oftener."""
    return of + [often] * (len(OF_01) - len(of))


# an eighth of the themes of a random script are of each list
ALL = OF_01 + weighed(OF_RATES, themes_of_01) + weighed(OF_LOOKS, looks_in_themes) + weighed(OF_HOLDS, hold_states)
ALL += OF_CUTS * (len(OF_01) // len(OF_CUTS)) + OF_ORDERS * (len(OF_01) // len(OF_ORDERS))
ALL += OF_BUSY * (len(OF_01) // len(OF_BUSY)) + OF_BITS * (len(OF_01) // len(OF_BITS))


def any_script(pick, size):
    """A script of about so many bytes. Some end badly: cut anywhere, an unknown letter, a run too long."""
    out = largest_images(pick) if pick.chance(4) else b''
    if pick.chance(50):
        out = on_tms5220c(pick, out)
    if pick.chance(50):
        out = with_looks(pick, out)
    if pick.chance(50):
        out = in_order(pick, out)
    size += len(out)
    while len(out) < size:
        theme = pick.one_of(ALL)
        part = theme(pick)
        # the lists but §9's and §10's have most significant first; half of what is made of them is played with the other order
        out += in_order(pick, part) if theme not in OF_ORDERS + OF_BITS and pick.chance(50) else part
    if pick.chance(10):
        too_long, cut = [run(LONGEST_RUN + 1), run(2 ** 32 - 1)], [image(b'\xff')[:3], voice(bytes(9))[:-1]]
        cut += [rated_frame_at(1, 0)[:-1], rated_walk(1, 2, 0)[:-1]]
        above = [power_up_with(*pick.one_of([(2, 0), (0, 2), (255, 255), (1, pick.between(2, 255))]))]
        out += pick.one_of([b'x', b'\0', b'i', b'q', b'l', b'k', b'o'] + too_long + cut + above) + step()
    if pick.chance(10):
        out = out[:pick.below(len(out) + 1)]
    return out[:MOST_SCRIPT_BYTES]
