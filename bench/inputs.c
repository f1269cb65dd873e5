#include <string.h>
#include "inputs.h"

const struct mix all_silence = {100, 0, 0, NO_RATE}, all_voiced = {0, 0, 0, NO_RATE}, all_unvoiced = {0, 0, 100, NO_RATE},
                 speech = {10, 25, 25, NO_RATE}, speech_rate_zero = {10, 25, 25, RATE_ZERO},
                 speech_any_rate = {10, 25, 25, ANY_RATE};

enum { SEED = 1 };
static uint64_t seed = SEED;

int between(int low, int high)
{
    seed = seed * 6364136223846793005u + 1442695040888963407u;
    return low + (int)((seed >> 33) % (uint64_t)(high - low + 1));
}

void begin_again(void)
{
    seed = SEED;
}

static void put_word(uint8_t *at, int word)
{
    at[0] = (unsigned)word >> 8 & 255;
    at[1] = word & 255;
}

/* A valid voice file; its size. */
size_t make_voice(uint8_t *voice)
{
    int count = between(1, 64);
    put_word(voice, 496 + count);
    voice[2] = 1;
    for (int i = 0; i < 15; i++)
        put_word(voice + 3 + 2 * i, i ? between(0, 1023) : 0);
    for (int i = 0; i < 64; i++)
        put_word(voice + 33 + 2 * i, i ? between(1, 1023) : 0);
    for (int i = 0; i < 168; i++)
        put_word(voice + 161 + 2 * i, between(-512, 511));
    voice[497] = count;
    for (int i = 0; i < count; i++)
        voice[498 + i] = between(0, 255);
    return 498 + count;
}

/* Loud and resonant, so that the filter's sums pass their range again and again: the most energy, K near its ends. */
void make_loud(uint8_t *voice)
{
    for (int i = 1; i < 15; i++)
        put_word(voice + 3 + 2 * i, 1023);
    for (int i = 0; i < 168; i++)
        put_word(voice + 161 + 2 * i, between(0, 1) ? between(-512, -440) : between(440, 511));
}

static void put(struct image *image, size_t *bit, int width, unsigned value)
{
    for (int i = width - 1; i >= 0; i--, ++*bit)
        if (value >> i & 1)
            image->bytes[*bit / 8] |= 0x80 >> *bit % 8;
}

static void put_ks(struct image *image, size_t *bit, int count)
{
    static const int width[10] = {5, 5, 4, 4, 4, 4, 4, 3, 3, 3};
    for (int i = 0; i < count; i++)
        put(image, bit, width[i], between(0, 255) & ((1 << width[i]) - 1));
}

static void put_rate(struct image *image, size_t *bit, enum rate_bits rate)
{
    if (rate != NO_RATE)
        put(image, bit, 2, rate == ANY_RATE ? between(0, 3) : 0);
}

static void put_frame(struct image *image, size_t *bit, struct mix mix)
{
    int kind = between(1, 100);
    if (kind <= mix.silence) {
        put(image, bit, 4, 0);
        return;
    }
    kind -= mix.silence;
    put(image, bit, 4, between(1, 14));
    put(image, bit, 1, kind <= mix.repeat);
    kind -= mix.repeat;
    int unvoiced = kind > 0 && kind <= mix.unvoiced;
    put(image, bit, 6, unvoiced ? 0 : between(1, 63));
    if (kind > 0)
        put_ks(image, bit, unvoiced ? 4 : 10);
}

void make_image(struct image *image, size_t length, struct mix mix, size_t stop_after)
{
    /* what rate bits add to a frame and the stop at the end */
    size_t bit = 0, more = mix.rate == NO_RATE ? 0 : 4;
    memset(image->bytes, 0, sizeof image->bytes);
    image->length = length;
    for (image->count = 0; bit + 54 + more <= 8 * length || (mix.silence == 100 && bit + 8 + more <= 8 * length);
         image->count++) {
        put_rate(image, &bit, mix.rate);
        image->first[image->count] = bit;
        if (stop_after && image->count % (stop_after + 1) == stop_after)
            put(image, &bit, 4, 15);
        else
            put_frame(image, &bit, mix);
    }
    put_rate(image, &bit, mix.rate);
    image->first[image->count++] = bit;
    put(image, &bit, 4, 15);
}

unsigned put_energy(struct image *image, size_t frame, unsigned energy)
{
    size_t bit = image->first[frame];
    unsigned old = 0;
    for (int i = 3; i >= 0; i--, bit++) {
        uint8_t *byte = &image->bytes[bit / 8], mask = 0x80 >> bit % 8;
        old = 2 * old + (*byte & mask ? 1 : 0);
        *byte = energy >> i & 1 ? *byte | mask : *byte & ~mask;
    }
    return old;
}
