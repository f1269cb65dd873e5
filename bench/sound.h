/* One sample of the sound, and what moves it. In a header, so that a run has it in its loop without a call. */
#include "chip.h"

static int clamp(int z, int low, int high)
{
    return z < low ? low : z > high ? high : z;
}

static int excitation(const struct sound *s, const uint8_t *voice)
{
    if (s->target.pitch != 0)
        return s->pulse < voice[497] ? (int8_t)voice[498 + s->pulse] : 0;
    return s->noise & 1 ? -64 : 64;
}

/* Stage 10 first, each forward value from that of the stage above, the memory renewed in place. */
static int filter(const int *k, int *memory, int input)
{
    int f = clamp(input - (k[9] * memory[9] >> 9), -8192, 8191);
    for (int i = 8; i >= 0; i--) {
        f = clamp(f - (k[i] * memory[i] >> 9), -8192, 8191);
        memory[i + 1] = clamp(memory[i] + (k[i] * f >> 9), -8192, 8191);
    }
    memory[0] = f;
    return f;
}

static int16_t sample(struct sound *s, const uint8_t *voice)
{
    int input = s->current.energy * excitation(s, voice) >> 6;
    int f = filter(s->current.k, s->memory, input);
    s->pulse = s->pulse + 1 >= (unsigned)s->current.pitch ? 0 : s->pulse + 1;
    unsigned n = s->noise;
    s->noise = (2 * n + ((n >> 12 ^ n >> 3 ^ n >> 2 ^ n) & 1)) & 8191;
    return clamp(f, -512, 511);
}

/* Towards the targets; the shift of an interval divides by 8, 8, 8, 4, 4, 2, 2, 1, rounding down. A frame that holds keeps its
   currents until interval 7. */
static void interpolate(struct sound *s, unsigned interval)
{
    static const int shift[8] = {3, 3, 3, 2, 2, 1, 1, 0};
    struct params *c = &s->current;
    const struct params *t = &s->target;
    int by = shift[interval];
    if (s->holds && interval < 7)
        return;
    c->energy += (t->energy - c->energy) >> by;
    c->pitch += (t->pitch - c->pitch) >> by;
    for (int i = 0; i < 10; i++)
        c->k[i] += (t->k[i] - c->k[i]) >> by;
}

/* word n of the voice file's tables, in two's complement: 15 energies, 64 pitches, 168 K values */
static int table(const uint8_t *voice, unsigned n)
{
    return (int16_t)(voice[3 + 2 * n] << 8 | voice[4 + 2 * n]);
}

static void set_targets(struct params *t, const uint8_t *voice, const struct frame *f)
{
    static const unsigned start[10] = {79, 111, 143, 159, 175, 191, 207, 223, 231, 239};
    if (f->kind == SILENCE || f->kind == STOP) {
        t->energy = 0;
        return;
    }
    t->energy = table(voice, f->energy);
    t->pitch = table(voice, 15 + f->pitch);
    if (f->kind == REPEAT)
        return;
    for (int i = 0; i < 10; i++)
        t->k[i] = f->kind == VOICED || i < 4 ? table(voice, start[i] + f->k[i]) : 0;
}

/* The frame's targets; it holds where it changes voiced to unvoiced or back, or energy comes from 0. */
static void begin_frame(struct sound *s, const uint8_t *voice, const struct frame *f)
{
    bool was_voiced = s->target.pitch != 0, was_mute = s->target.energy == 0;
    set_targets(&s->target, voice, f);
    s->holds = was_voiced != (s->target.pitch != 0) || (was_mute && s->target.energy != 0);
}
