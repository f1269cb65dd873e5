/* Bits of an image, frames, frame rates, and the phrase walks. */
#include "chip.h"

bool image_valid(struct bytes image)
{
    return image.length >= 1 && image.length <= 262144;
}

static unsigned byte_at(struct bytes s, size_t i)
{
    return i < s.length ? s.at[i] : 0;
}

/* The bits from a bit on, at most 8, the first most significant; zeros past the end. They lie in two bytes. */
unsigned field(struct bytes s, size_t bit, unsigned width)
{
    unsigned word = byte_at(s, bit / 8) << 8 | byte_at(s, bit / 8 + 1);
    return word >> (16 - bit % 8 - width) & ((1u << width) - 1);
}

/* The kind of the frame at a bit, its energy and pitch, and the bits that it takes. */
static unsigned head(struct bytes s, size_t bit, struct frame *f)
{
    f->energy = field(s, bit, 4);
    f->pitch = 0;
    if (f->energy == 0 || f->energy == 15) {
        f->kind = f->energy ? STOP : SILENCE;
        return 4;
    }
    f->pitch = field(s, bit + 5, 6);
    if (field(s, bit + 4, 1)) {
        f->kind = REPEAT;
        return 11;
    }
    f->kind = f->pitch ? VOICED : UNVOICED;
    return f->pitch ? 50 : 29;
}

/* Passes the rate bits before a frame, where v says that there are any. */
static unsigned rate_bits(struct bytes s, size_t *bit, struct rate rate)
{
    if (!rate.v)
        return 0;
    *bit += 2;
    return field(s, *bit - 2, 2);
}

/* How short the bits are of a frame from a bit up to `next`, which with its rate bits begins at bit `begun`. */
static struct shortfall shortfall(struct bytes s, size_t begun, size_t bit, size_t next)
{
    size_t end = 8 * s.length > begun ? 8 * s.length : begun;
    size_t wanted = end < bit + 4 ? bit + 4 : end < bit + 11 ? bit + 11 : next;
    return (struct shortfall){begun, wanted - end};
}

bool frame_at(struct bytes s, size_t bit, struct rate rate, struct frame *f, size_t *next, struct shortfall *cut)
{
    static const unsigned width[10] = {5, 5, 4, 4, 4, 4, 4, 3, 3, 3};
    size_t begun = bit;
    f->rate = rate_bits(s, &bit, rate);
    *next = bit + head(s, bit, f);
    if (*next > 8 * s.length) {
        *cut = shortfall(s, begun, bit, *next);
        return false;
    }
    int count = f->kind == VOICED ? 10 : f->kind == UNVOICED ? 4 : 0;
    bit += 11;
    for (int i = 0; i < count; i++) {
        f->k[i] = field(s, bit, width[i]);
        bit += width[i];
    }
    return true;
}

/* A walk that comes to a cut frame. */
static int cut(struct bytes image, size_t begun, size_t bit, size_t next, struct walk *answer)
{
    answer->cut = shortfall(image, begun, bit, next);
    return NO_PHRASE;
}

int walk(struct bytes image, size_t address, struct walk *answer)
{
    *answer = (struct walk){0};
    if (!image_valid(image))
        return IMAGE;
    if (address >= image.length)
        return BEYOND;
    size_t bit = 8 * address;
    uint32_t frames = 0;
    struct frame f;
    do {
        size_t next = bit + head(image, bit, &f);
        if (next > 8 * image.length)
            return cut(image, bit, bit, next, answer);
        bit = next;
        frames++;
    } while (f.kind != STOP);
    *answer = (struct walk){bit - 8 * address, frames, 8ull * frames, 200ull * frames, {0}};
    return TAKEN;
}

/* ---- at a frame rate */

bool rate_valid(struct rate rate)
{
    return rate.v <= 1 && rate.rr <= 3;
}

/* The first interval of a frame with these rate bits: those before it are skipped. */
unsigned first_interval(struct rate rate, unsigned bits)
{
    return 2 * (rate.v ? bits : rate.rr);
}

int rate_fault(struct bytes image, size_t address, struct rate rate)
{
    if (!image_valid(image))
        return IMAGE;
    if (!rate_valid(rate))
        return STATE;
    return address >= image.length ? BEYOND : TAKEN;
}

int walk_rated(struct bytes image, size_t address, struct rate rate, struct walk *answer)
{
    *answer = (struct walk){0};
    int fault = rate_fault(image, address, rate);
    if (fault)
        return fault;
    size_t bit = 8 * address;
    uint32_t frames = 0;
    uint64_t intervals = 0;
    struct frame f;
    do {
        size_t begun = bit;
        unsigned bits = rate_bits(image, &bit, rate);
        size_t next = bit + head(image, bit, &f);
        if (next > 8 * image.length)
            return cut(image, begun, bit, next, answer);
        bit = next;
        frames++;
        intervals += 8 - first_interval(rate, bits);
    } while (f.kind != STOP);
    *answer = (struct walk){bit - 8 * address, frames, intervals, 25 * intervals, {0}};
    return TAKEN;
}
