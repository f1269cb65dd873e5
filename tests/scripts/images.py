"""Frames as bits, and the images and FIFO bytes that hold them (document 01, "Frames", and 02, §5, §4 and §9)."""
from states import MOST_FIRST

K_BITS = [5, 5, 4, 4, 4, 4, 4, 3, 3, 3]
MOST_IMAGE_BYTES = 262144


def bits(value, width):
    return f'{value:0{width}b}'


SILENCE, STOP = bits(0, 4), bits(15, 4)


def repeat(energy, pitch):
    return bits(energy, 4) + '1' + bits(pitch, 6)


def unvoiced(energy, ks):
    return bits(energy, 4) + '0' + bits(0, 6) + ''.join(map(bits, ks, K_BITS[:4]))


def voiced(energy, pitch, ks):
    return bits(energy, 4) + '0' + bits(pitch, 6) + ''.join(map(bits, ks, K_BITS))


def rated(rate, frame):
    """The frame as it stands with v = 1."""
    return bits(rate, 2) + frame


def pack(text, fill='0'):
    """The bytes that begin with these bits; `fill` completes the last one."""
    text += fill * (-len(text) % 8)
    return bytes(int(text[i:i + 8], 2) for i in range(0, len(text), 8))


def turned(data):
    """The same bytes, each with its bits in the other order."""
    return bytes(int(f'{byte:08b}'[::-1], 2) for byte in data)


def fed(order, text, fill='0'):
    """The bytes that a host writes for these bits to a chip with this order."""
    data = pack(text, fill)
    return data if order == MOST_FIRST else turned(data)


def any_frame(pick):
    """A random frame other than a stop."""
    kind = pick.below(5)
    energy, pitch = pick.between(1, 14), pick.edge(1, 63)
    ks = [pick.edge(0, 2 ** width - 1) for width in K_BITS]
    if kind == 0:
        return SILENCE
    if kind == 1:
        return repeat(energy, pick.edge(0, 63))
    if kind == 2:
        return unvoiced(energy, ks[:4])
    return voiced(energy, pitch, ks)


def any_frames(pick, count):
    return ''.join(any_frame(pick) for _ in range(count))


def any_phrase(pick, most):
    """A whole phrase of at most so many frames before its stop."""
    return pack(any_frames(pick, pick.below(most + 1)) + STOP, pick.one_of('01'))


def any_rated_frames(pick, count):
    """Random frames other than a stop, each with a rate; all of one rate at times."""
    rates = pick.one_of([[0, 1, 2, 3], [0, 1, 2, 3], [pick.below(4)]])
    return ''.join(rated(pick.one_of(rates), any_frame(pick)) for _ in range(count))


def any_rated_phrase(pick, most):
    return pack(any_rated_frames(pick, pick.below(most + 1)) + rated(pick.below(4), STOP), pick.one_of('01'))


def any_changing_frames(pick, count, rated_ones):
    """Random frames that turn from voiced to unvoiced or back, or from silence to speech, oftener than not."""
    text = ''
    for _ in range(count):
        energy, pitch = pick.between(1, 14), pick.between(1, 63)
        ks = [pick.edge(0, 2 ** width - 1) for width in K_BITS]
        kinds = [SILENCE, repeat(energy, pitch), repeat(energy, 0), unvoiced(energy, ks[:4]), voiced(energy, pitch, ks)]
        frame = pick.one_of(kinds + kinds[2:])
        text += rated(pick.below(4), frame) if rated_ones else frame
    return text


def any_cut(pick, v):
    """Some bits of a random frame, not all of them; often as many as there are where §4 counts on to another bound, one more or
    one less."""
    noise = unvoiced(pick.between(1, 14), [pick.below(2 ** width) for width in K_BITS[:4]])
    frame = pick.one_of([STOP, noise, any_frame(pick), any_frame(pick), any_frame(pick)])
    text = rated(pick.below(4), frame) if v else frame
    present = pick.one_of([pick.below(len(text)), pick.one_of([0, 4, 11, 29, 50]) + 2 * v + pick.between(-1, 1)])
    return text[:min(max(present, 0), len(text) - 1)]


def any_row(pick, v, bits, most):
    """Random whole frames other than a stop, each with its rate, which make whole bytes together with so many bits."""
    row = [any_frame(pick) for _ in range(pick.below(most + 1))]
    bits += sum(len(frame) + 2 * v for frame in row)
    # silences and repeats make up each number of bits that may lack
    fits = [(silences, repeats) for silences in range(4) for repeats in range(4)
            if (bits + (4 + 2 * v) * silences + (11 + 2 * v) * repeats) % 8 == 0]
    silences, repeats = fits[0]
    row += [SILENCE] * silences + [repeat(pick.between(1, 14), pick.below(64)) for _ in range(repeats)]
    return [(pick.below(4), frame) for frame in row]


def damaged(pick, data):
    """The same bytes cut short, or with a bit turned, or both."""
    data = bytearray(data)
    if pick.chance(50) and data:
        data[pick.below(len(data))] ^= 1 << pick.below(8)
    if pick.chance(50):
        del data[pick.below(len(data) + 1):]
    return bytes(data)


def any_image(pick, most=4):
    """A phrase behind a few bytes, damaged or whole, or random bytes; now and then no byte at all."""
    kind = pick.below(10)
    if kind == 0:
        return b''
    if kind < 3:
        return pick.bytes(pick.between(1, 60))
    phrase = any_phrase(pick, most)
    if kind < 6:
        phrase = damaged(pick, phrase)
    return pick.bytes(pick.below(4)) + phrase + pick.bytes(pick.below(4))
