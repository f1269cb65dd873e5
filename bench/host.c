#include "host.h"

const struct version proved = {tms_power_up, tms_write, tms_read, tms_step, tms_run, tms_walk, tms_walk_5220c, tms_voice_check};

enum { PART = 100 };

/* Writes bytes up to the first that is refused; its number, and how many were taken. */
static uint8_t give(struct host *h, const uint8_t *bytes, size_t length, size_t *taken)
{
    for (*taken = 0; *taken < length; ++*taken) {
        uint8_t refusal = h->by->write(&h->chip, h->image, h->image_length, bytes[*taken]);
        if (refusal)
            return refusal;
    }
    return TMS_TAKEN;
}

/* The five loads of an address and Speak. */
static void put_speak(uint8_t bytes[6], size_t address)
{
    for (int i = 0; i < 5; i++)
        bytes[i] = TMS_LOAD_ADDRESS | (address >> 4 * i & 15);
    bytes[5] = TMS_SPEAK;
}

uint8_t speak(struct host *h, size_t address)
{
    uint8_t bytes[6];
    size_t taken;
    put_speak(bytes, address);
    h->by->power_up(&h->chip, TMS_5220, TMS_LEAST_FIRST);
    return give(h, bytes, sizeof bytes, &taken);
}

uint8_t speak_rated(struct host *h, size_t address, uint8_t v, uint8_t rr)
{
    uint8_t bytes[7];
    size_t taken;
    bytes[0] = TMS_LOAD_FRAME_RATE | v << 2 | rr;
    put_speak(bytes + 1, address);
    h->by->power_up(&h->chip, TMS_5220C, TMS_LEAST_FIRST);
    return give(h, bytes, sizeof bytes, &taken);
}

uint8_t play(struct host *h, int16_t *out, size_t length)
{
    return h->by->run(&h->chip, h->image, h->image_length, h->voice, h->voice_length, out, length);
}

uint8_t play_in_parts(struct host *h, int16_t *out, size_t length)
{
    for (size_t i = 0; length - i >= PART; i += PART) {
        uint8_t refusal = play(h, out + i, PART);
        if (refusal)
            return refusal;
    }
    return TMS_TAKEN;
}

uint8_t play_by_steps(struct host *h, int16_t *out, size_t length)
{
    uint8_t report;
    tms_frame frame;
    tms_bits bits;
    for (size_t i = 0; i < length; i++) {
        uint8_t refusal = h->by->step(&h->chip, h->image, h->image_length, h->voice, h->voice_length, out + i, &report, &frame,
                                      &bits);
        if (refusal)
            return refusal;
    }
    return TMS_TAKEN;
}

uint8_t speak_external(struct host *h, enum tms_bit_order order, const uint8_t *bytes, size_t bytes_length, int16_t *out,
                       size_t length)
{
    size_t next = 0, taken;
    h->by->power_up(&h->chip, TMS_5220, order);
    uint8_t refusal = h->by->write(&h->chip, h->image, h->image_length, TMS_SPEAK_EXTERNAL);
    for (size_t i = 0; !refusal && length - i >= PART; i += PART) {
        give(h, bytes + next, bytes_length - next, &taken);
        next += taken;
        refusal = play(h, out + i, PART);
    }
    return refusal;
}
