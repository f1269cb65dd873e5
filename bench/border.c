/* The C version behind the border of include/tms5220.h: a chip crosses as numbers, which may be any. */
#include <string.h>
#include "border.h"
#include "chip.h"

const struct version plain = {c_power_up, c_write, c_read, c_step, c_run, c_walk, c_walk_5220c, c_voice_check};

/* ---- the chip and its numbers */

enum { NO_NIBBLE = 255 };

/* Whether the fields that are narrower than a number can hold theirs. The others hold any, a negative one as one far out of
   range. */
static bool fits(const int32_t *n)
{
    uint32_t flags = n[TMS_N_PENDING] | n[TMS_N_INTERRUPT] | n[TMS_N_SOUNDING] | n[TMS_N_DEVICE] | n[TMS_N_HOLD]
        | n[TMS_N_BIT_ORDER];
    uint32_t bytes = n[TMS_N_DATA] | n[TMS_N_V] | n[TMS_N_RR];
    for (int i = 0; i < TMS_FIFO_SIZE; i++)
        bytes |= n[TMS_N_FIFO + i];
    return (uint32_t)n[TMS_N_MODE] <= TMS_EXTERNAL && flags <= 1 && bytes <= 255;
}

/* A byte may be part of any object: without `restrict` a compiler would have to take the bytes one by one. */
static void fifo_from(uint8_t *restrict bytes, const int32_t *restrict n)
{
    for (int i = 0; i < TMS_FIFO_SIZE; i++)
        bytes[i] = n[i];
}

static void fifo_to(int32_t *restrict n, const uint8_t *restrict bytes)
{
    for (int i = 0; i < TMS_FIFO_SIZE; i++)
        n[i] = bytes[i];
}

static void sound_from(struct sound *s, const int32_t *n)
{
    memcpy(&s->current, n + TMS_N_CURRENT, sizeof s->current);
    memcpy(&s->target, n + TMS_N_TARGET, sizeof s->target);
    memcpy(s->memory, n + TMS_N_FILTER, sizeof s->memory);
    s->noise = n[TMS_N_NOISE];
    s->pulse = n[TMS_N_PULSE];
    s->holds = n[TMS_N_HOLD];
}

/* Numbers that do not fit make a chip that is not valid, so that a call refuses them where it refuses such a chip. */
static void from_numbers(struct chip *c, const int32_t *n)
{
    c->mode = n[TMS_N_MODE];
    c->is_5220c = n[TMS_N_DEVICE];
    c->rate = (struct rate){n[TMS_N_V], n[TMS_N_RR]};
    c->position = (uint32_t)n[TMS_N_POSITION];
    c->nibble = fits(n) ? n[TMS_N_NIBBLE] : NO_NIBBLE;
    fifo_from(c->fifo, n + TMS_N_FIFO);
    c->level = n[TMS_N_LEVEL];
    c->used = n[TMS_N_USED];
    c->order = n[TMS_N_BIT_ORDER];
    c->pending = n[TMS_N_PENDING];
    c->interrupt = n[TMS_N_INTERRUPT];
    c->sounding = n[TMS_N_SOUNDING];
    c->byte = n[TMS_N_DATA];
    c->busy = n[TMS_N_BUSY];
    c->sample = n[TMS_N_SAMPLE];
    c->interval = n[TMS_N_INTERVAL];
    sound_from(&c->sound, n);
}

static void sound_to(int32_t *n, const struct sound *s)
{
    memcpy(n + TMS_N_CURRENT, &s->current, sizeof s->current);
    memcpy(n + TMS_N_TARGET, &s->target, sizeof s->target);
    memcpy(n + TMS_N_FILTER, s->memory, sizeof s->memory);
    n[TMS_N_NOISE] = s->noise;
    n[TMS_N_PULSE] = s->pulse;
    n[TMS_N_HOLD] = s->holds;
}

static void to_numbers(int32_t *n, const struct chip *c)
{
    n[TMS_N_MODE] = c->mode;
    n[TMS_N_DEVICE] = c->is_5220c;
    n[TMS_N_V] = c->rate.v;
    n[TMS_N_RR] = c->rate.rr;
    n[TMS_N_POSITION] = c->position;
    n[TMS_N_NIBBLE] = c->nibble;
    fifo_to(n + TMS_N_FIFO, c->fifo);
    n[TMS_N_LEVEL] = c->level;
    n[TMS_N_USED] = c->used;
    n[TMS_N_BIT_ORDER] = c->order;
    n[TMS_N_PENDING] = c->pending;
    n[TMS_N_INTERRUPT] = c->interrupt;
    n[TMS_N_SOUNDING] = c->sounding;
    n[TMS_N_DATA] = c->byte;
    n[TMS_N_BUSY] = c->busy;
    n[TMS_N_SAMPLE] = c->sample;
    n[TMS_N_INTERVAL] = c->interval;
    sound_to(n, &c->sound);
}

/* Refused, a call leaves the numbers as they were. */
static uint8_t hand_back(tms_chip *chip, const struct chip *c, int refusal)
{
    if (!refusal)
        to_numbers(chip->n, c);
    return refusal;
}

/* ---- the operations on a chip */

uint8_t c_power_up(tms_chip *chip, uint8_t device, uint8_t bit_order)
{
    struct chip c;
    if (device > 1 || bit_order > 1)
        return STATE;
    if (device == TMS_5220C)
        power_up_5220c(&c, bit_order);
    else
        power_up(&c, bit_order);
    return hand_back(chip, &c, TAKEN);
}

uint8_t c_write(tms_chip *chip, const uint8_t *image, size_t image_length, uint8_t byte)
{
    struct chip c;
    from_numbers(&c, chip->n);
    return hand_back(chip, &c, chip_write(&c, (struct bytes){image, image_length}, byte));
}

uint8_t c_read(tms_chip *chip, uint8_t *byte)
{
    struct chip c;
    from_numbers(&c, chip->n);
    return hand_back(chip, &c, chip_read(&c, byte));
}

/* The frame that begins; zeros where none does, and in what its kind does not carry. */
static void tell_frame(tms_frame *to, const struct step *s)
{
    static const int carried[] = {[UNVOICED] = 4, [VOICED] = 10};
    *to = (tms_frame){0};
    if (s->report != FRAME && s->report != STOPPED)
        return;
    to->kind = s->frame.kind + TMS_SILENCE;
    to->energy = s->frame.energy;
    to->pitch = s->frame.pitch;
    to->rate = s->frame.rate;
    for (int i = 0; i < carried[s->frame.kind]; i++)
        to->k[i] = s->frame.k[i];
}

uint8_t c_step(tms_chip *chip, const uint8_t *image, size_t image_length, const uint8_t *voice, size_t voice_length,
               int16_t *sample, uint8_t *report, tms_frame *frame, tms_bits *bits)
{
    struct chip c;
    struct step step;
    from_numbers(&c, chip->n);
    int refusal = chip_step(&c, (struct bytes){image, image_length}, (struct bytes){voice, voice_length}, &step);
    *sample = step.sample;
    *report = step.report;
    tell_frame(frame, &step);
    *bits = (tms_bits){step.cut.begun, step.used_up, step.cut.missing, step.thrown};
    return hand_back(chip, &c, refusal);
}

uint8_t c_run(tms_chip *chip, const uint8_t *image, size_t image_length, const uint8_t *voice, size_t voice_length,
              int16_t *out, size_t out_length)
{
    struct chip c;
    from_numbers(&c, chip->n);
    int refusal = chip_run(&c, (struct bytes){image, image_length}, (struct bytes){voice, voice_length}, out, out_length);
    return hand_back(chip, &c, refusal);
}

/* ---- what an image and a voice file hold */

static uint8_t tell_walk(tms_phrase *phrase, size_t address, const struct walk *w, int refusal)
{
    *phrase = (tms_phrase){w->bits, w->frames, w->intervals, w->samples, w->cut.begun, w->cut.missing,
                           refusal ? 0 : address, (w->bits + 7) / 8};
    return refusal;
}

uint8_t c_walk(const uint8_t *image, size_t image_length, size_t address, tms_phrase *phrase)
{
    struct walk answer;
    int refusal = walk((struct bytes){image, image_length}, address, &answer);
    return tell_walk(phrase, address, &answer, refusal);
}

uint8_t c_walk_5220c(const uint8_t *image, size_t image_length, size_t address, uint8_t v, uint8_t rr, tms_phrase *phrase)
{
    struct walk answer;
    int refusal = walk_rated((struct bytes){image, image_length}, address, (struct rate){v, rr}, &answer);
    return tell_walk(phrase, address, &answer, refusal);
}

uint8_t c_voice_check(const uint8_t *voice, size_t voice_length)
{
    return voice_check((struct bytes){voice, voice_length});
}
