/* The chip: a byte written, a byte read, a sample step, a run. */
#include <string.h>
#include "sound.h"

static const struct sound at_rest = {.noise = 8191};

static void start(struct chip *c, bool is_5220c, enum order order)
{
    *c = (struct chip){.is_5220c = is_5220c, .order = order, .sound = at_rest};
}

void power_up(struct chip *c, enum order order)
{
    start(c, false, order);
}

void power_up_5220c(struct chip *c, enum order order)
{
    start(c, true, order);
}

/* ---- the ranges */

static bool inside(int z, int low, int high)
{
    return z >= low && z <= high;
}

static bool params_valid(const struct params *p)
{
    for (int i = 0; i < 10; i++)
        if (!inside(p->k[i], -512, 511))
            return false;
    return inside(p->energy, 0, 1023) && inside(p->pitch, 0, 1023);
}

static bool sound_valid(const struct sound *s)
{
    for (int i = 0; i < 10; i++)
        if (!inside(s->memory[i], -8192, 8191))
            return false;
    return params_valid(&s->current) && params_valid(&s->target) && s->noise >= 1 && s->noise <= 8191 && s->pulse <= 1022;
}

static bool fifo_valid(const struct chip *c)
{
    static const unsigned least[4] = {0, 0, 0, 1}, most[4] = {0, 0, 8, 16}, used[4] = {0, 0, 0, 7};
    if (c->level < least[c->mode] || c->level > most[c->mode] || c->used > used[c->mode])
        return false;
    for (unsigned i = c->level; i < 16; i++)
        if (c->fifo[i] != 0)
            return false;
    return true;
}

/* A TMS5220 has no rate to load: its frames take no rate bits and last 200 samples. */
static bool device_valid(const struct chip *c)
{
    return c->is_5220c ? rate_valid(c->rate) : c->rate.v == 0 && c->rate.rr == 0;
}

static bool speaks(enum mode mode)
{
    return mode == ROM || mode == EXTERNAL;
}

static bool valid(const struct chip *c)
{
    if (c->position > 2097152 || c->nibble > 4 || !fifo_valid(c) || !device_valid(c))
        return false;
    if (c->pending ? c->mode != IDLE : c->byte != 0)
        return false;
    if (c->busy > 2 || (c->busy && c->mode != IDLE))
        return false;
    if (c->sample > 24 || c->interval > 7 || !sound_valid(&c->sound))
        return false;
    return c->sounding
        || (c->sample == 0 && c->interval == 0 && !speaks(c->mode) && !memcmp(&c->sound, &at_rest, sizeof at_rest));
}

/* ---- a byte written */

/* by the middle code; Load Frame Rate has two */
enum command { LOAD_RATE, READ_BYTE, LOAD_RATE_TOO, BRANCH, LOAD, SPEAK, SPEAK_EXTERNAL, RESET };

static bool beyond(const struct chip *c, struct bytes image, enum command command)
{
    switch (command) {
    case READ_BYTE:
        return c->position + 8 > 8 * image.length;
    case BRANCH:
        return c->position / 8 + 2 > image.length;
    case SPEAK:
        return c->position + 1 > 8 * image.length;
    default:
        return false;
    }
}

static int write_fault(const struct chip *c, struct bytes image, enum command command)
{
    if (!image_valid(image))
        return IMAGE;
    if (!valid(c))
        return STATE;
    if (c->busy || (c->mode == ROM ? command != RESET : c->level == 16))
        return WAIT;
    if (c->mode == IDLE && beyond(c, image, command))
        return BEYOND;
    return TAKEN;
}

/* TS rises: the sound starts from rest. */
static void talk(struct chip *c, enum mode mode)
{
    c->mode = mode;
    c->sounding = true;
    c->sample = c->interval = 0;
    c->sound = at_rest;
}

static void load(struct chip *c, unsigned value)
{
    unsigned address = c->position / 8 % 262144, by = 4 * c->nibble;
    address = (address & ~(15u << by)) | value << by;
    c->position = 8 * (size_t)(address % 262144);
    c->nibble = (c->nibble + 1) % 5;
}

static void branch(struct chip *c, struct bytes image)
{
    size_t address = c->position / 8;
    unsigned word = image.at[address] | image.at[address + 1] << 8;
    c->position = 8 * (address / 16384 * 16384 + word % 16384);
    c->nibble = 0;
    c->busy = 2;
}

static void load_rate(struct chip *c, uint8_t byte)
{
    if (c->is_5220c)
        c->rate = (struct rate){.v = byte >> 2 & 1, .rr = byte & 3};
}

static void obey(struct chip *c, struct bytes image, uint8_t byte, enum command command)
{
    c->pending = false;
    c->byte = 0;
    switch (command) {
    case LOAD_RATE:
    case LOAD_RATE_TOO:
        load_rate(c, byte);
        break;
    case READ_BYTE:
        c->pending = true;
        c->byte = field(image, c->position, 8);
        c->position += 8;
        c->nibble = 0;
        break;
    case BRANCH:
        branch(c, image);
        break;
    case LOAD:
        load(c, byte & 15);
        break;
    case SPEAK:
        c->nibble = 0;
        talk(c, ROM);
        break;
    case SPEAK_EXTERNAL:
        c->mode = WAITING;
        break;
    case RESET:
        start(c, c->is_5220c, c->order);
        break;
    }
}

int chip_write(struct chip *c, struct bytes image, uint8_t byte)
{
    enum command command = byte >> 4 & 7;
    int fault = write_fault(c, image, command);
    if (fault)
        return fault;
    if (c->mode == ROM)
        start(c, c->is_5220c, c->order);
    else if (c->mode == IDLE)
        obey(c, image, byte, command);
    else {
        c->fifo[c->level++] = byte;
        if (c->mode == WAITING && c->level == 9)
            talk(c, EXTERNAL);
    }
    return TAKEN;
}

/* ---- a byte read */

int chip_read(struct chip *c, uint8_t *byte)
{
    *byte = 0;
    if (!valid(c))
        return STATE;
    if (c->pending) {
        *byte = c->byte;
        c->pending = false;
        c->byte = 0;
    } else {
        *byte = (speaks(c->mode) ? 0x80 : 0) | (c->level <= 8 ? 0x40 : 0) | (c->level == 0 ? 0x20 : 0);
        c->interrupt = false;
    }
    return TAKEN;
}

/* ---- a sample step */

/* The interrupt is set when TS falls or BL or BE rises. */
static void change(struct chip *c, enum mode mode, unsigned level)
{
    if ((speaks(c->mode) && !speaks(mode)) || (c->level > 8 && level <= 8) || (c->level > 0 && level == 0))
        c->interrupt = true;
    c->mode = mode;
    c->level = level;
}

static void empty(struct chip *c)
{
    memset(c->fifo, 0, sizeof c->fifo);
    c->used = 0;
}

static void rest(struct chip *c)
{
    c->sounding = false;
    c->sample = c->interval = 0;
    c->sound = at_rest;
}

static void use_up(struct chip *c, unsigned bits)
{
    unsigned n = bits / 8;
    memmove(c->fifo, c->fifo + n, 16 - n);
    memset(c->fifo + 16 - n, 0, n);
    c->used = bits % 8;
    change(c, c->mode, c->level - n);
}

static uint8_t reversed(uint8_t byte)
{
    byte = byte >> 4 | byte << 4;
    byte = (byte >> 2 & 0x33) | (byte & 0x33) << 2;
    return (byte >> 1 & 0x55) | (byte & 0x55) << 1;
}

/* The bytes held, for a reader that takes the most significant bit first. */
static struct bytes held_bytes(const struct chip *c, uint8_t turned[16])
{
    if (c->order == MOST_FIRST)
        return (struct bytes){c->fifo, c->level};
    for (unsigned i = 0; i < c->level; i++)
        turned[i] = reversed(c->fifo[i]);
    return (struct bytes){turned, c->level};
}

/* The next frame from the ROM or the FIFO; false where it runs out. */
static bool take_frame(struct chip *c, struct bytes image, struct step *answer)
{
    struct frame *f = &answer->frame;
    size_t next;
    if (c->mode == ROM) {
        if (!frame_at(image, c->position, c->rate, f, &next, &answer->cut)) {
            if (c->position < 8 * image.length)
                c->position = 8 * image.length;
            change(c, IDLE, 0);
            return false;
        }
        c->position = next;
    } else {
        uint8_t turned[16];
        struct bytes held = held_bytes(c, turned);
        if (!frame_at(held, c->used, c->rate, f, &next, &answer->cut) || (f->kind != STOP && next == 8 * held.length)) {
            answer->used_up = 8 * c->level - c->used;
            answer->cut.begun = 0;
            change(c, IDLE, 0);
            empty(c);
            return false;
        }
        if (f->kind == STOP)
            answer->thrown = 8 * c->level - next;
        else
            use_up(c, next);
    }
    if (f->kind == STOP) {
        change(c, IDLE, 0);
        empty(c);
    }
    return true;
}

/* A frame boundary; false where the sound ends. */
static bool boundary(struct chip *c, struct bytes image, struct bytes voice, struct step *answer)
{
    if (!speaks(c->mode)) {
        rest(c);
        return false;
    }
    if (!take_frame(c, image, answer)) {
        rest(c);
        answer->report = RAN_OUT;
        return false;
    }
    answer->report = answer->frame.kind == STOP ? STOPPED : FRAME;
    c->interval = first_interval(c->rate, answer->frame.rate);
    begin_frame(&c->sound, voice.at, &answer->frame);
    return true;
}

static void take_step(struct chip *c, struct bytes image, struct bytes voice, struct step *answer)
{
    answer->sample = 0;
    answer->report = NOTHING;
    answer->used_up = 0;
    answer->thrown = 0;
    answer->cut = (struct shortfall){0};
    if (c->busy)
        c->busy--;
    if (!c->sounding)
        return;
    if (c->sample == 0) {
        if (c->interval == 0 && !boundary(c, image, voice, answer))
            return;
        interpolate(&c->sound, c->interval);
    }
    answer->sample = sample(&c->sound, voice.at);
    if (++c->sample == 25) {
        c->sample = 0;
        c->interval = (c->interval + 1) % 8;
    }
}

static int step_fault(const struct chip *c, struct bytes image, struct bytes voice)
{
    if (!image_valid(image))
        return IMAGE;
    int fault = voice_check(voice);
    if (fault)
        return fault;
    return valid(c) ? TAKEN : STATE;
}

int chip_step(struct chip *c, struct bytes image, struct bytes voice, struct step *answer)
{
    int fault = step_fault(c, image, voice);
    if (fault)
        *answer = (struct step){0};
    else
        take_step(c, image, voice, answer);
    return fault;
}

/* ---- a run */

int chip_run(struct chip *c, struct bytes image, struct bytes voice, int16_t *out, size_t length)
{
    int fault = step_fault(c, image, voice);
    if (fault)
        return fault;
    struct step step;
    for (size_t i = 0; i < length; i++) {
        take_step(c, image, voice, &step);
        out[i] = step.sample;
    }
    return TAKEN;
}
