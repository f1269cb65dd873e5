/* Random calls: random SEED CALLS

   Chips, images, voices and bytes are random ones, damaged now and then, and every buffer lies between guard pages, at their beginning or
   at their end. Each answer is compared with what tms5220.h says of it: the refusal number by tests of its own, in the order of numbers,
   zeros where a call is refused, and that it has changed nothing. The last line says how much was seen; the status is 1 where an
   answer is wrong, or where some refusal or report was never seen. */
#include <stdio.h>
#include <stdlib.h>
#include <string.h>
#include "guard.h"
#include "tms5220.h"

enum { CHIP, IMAGE, VOICE, OUT, BYTE, SAMPLE, REPORT, FRAME, BITS, EXTENT, PHRASE, AREAS };
enum { LONGEST_RUN = 400, WORLD = 64 /* calls with one image and one voice */, VOICE_LEAST = 499 };

static struct {
    uint8_t *pages;
    size_t length;
} areas[AREAS];

static uint64_t seed;
static unsigned long call;

/* What the calls are made with. */
static const uint8_t *image, *voice;
static size_t image_length, voice_length;
static tms_chip kept, before, *chip;

/* Bytes to be written one after another, so that a phrase comes to be spoken. */
static uint8_t queue[32];
static size_t queued;

static unsigned long refusals[TMS_NO_PHRASE + 1], reports[TMS_RAN_OUT + 1];

static uint32_t next(void)
{
    seed = seed * 6364136223846793005u + 1442695040888963407u;
    return (uint32_t)(seed >> 33);
}

static uint32_t below(uint32_t limit)
{
    return next() % limit;
}

static int one_in(uint32_t count)
{
    return below(count) == 0;
}

static void want(int holds, const char *what)
{
    if (!holds) {
        printf("random: call %lu: %s\n", call, what);
        exit(1);
    }
}

static int is_zero(const void *bytes, size_t size)
{
    const uint8_t *p = (const uint8_t *)bytes;
    for (size_t i = 0; i < size; i++)
        if (p[i] != 0)
            return 0;
    return 1;
}

/* `size` random bytes next to a guard page. */
static void *fresh(int area, size_t size)
{
    uint8_t *bytes = areas[area].pages + (one_in(2) ? 0 : areas[area].length - size);
    for (size_t i = 0; i < size; i++)
        bytes[i] = (uint8_t)next();
    return bytes;
}

/* What may be NULL where its length is 0, is so now and then. */
static void *null_or(void *bytes, size_t length)
{
    return length == 0 && one_in(2) ? NULL : bytes;
}

static void put_number(uint8_t *bytes, int number)
{
    bytes[0] = (uint8_t)((unsigned)number >> 8);
    bytes[1] = (uint8_t)number;
}

/* A voice file that is taken. */
static size_t fill_voice(uint8_t *bytes)
{
    size_t pulses = 1 + below(64), length = VOICE_LEAST - 1 + pulses;
    put_number(bytes, (int)length - 2);
    bytes[2] = 1;
    for (int i = 0; i < 15; i++)
        put_number(bytes + 3 + 2 * i, i == 0 ? 0 : (int)below(1024));
    for (int i = 0; i < 64; i++)
        put_number(bytes + 33 + 2 * i, i == 0 ? 0 : 1 + (int)below(1023));
    for (int i = 0; i < 168; i++)
        put_number(bytes + 161 + 2 * i, (int)below(1024) - 512);
    bytes[497] = (uint8_t)pulses;
    for (size_t i = 0; i < pulses; i++)
        bytes[498 + i] = (uint8_t)next();
    return length;
}

/* Now and then some faults, or a size of any kind. */
static size_t damage_voice(uint8_t *bytes, size_t length)
{
    static const size_t sizes[] = {0, 1, VOICE_LEAST - 1, VOICE_LEAST, TMS_VOICE_LIMIT, TMS_VOICE_LIMIT + 1};
    static const int fields[] = {0, 1, 2, 3, 4, 33, 34, 497};
    for (int faults = one_in(6) ? 1 + (int)below(3) : 0; faults > 0; faults--)
        bytes[one_in(2) ? fields[below(8)] : (int)below(VOICE_LEAST)] = (uint8_t)(one_in(2) ? below(3) : next());
    if (one_in(6)) {
        length = sizes[below(6)];
        if (one_in(2))
            put_number(bytes, (int)length - 2);
    }
    return length;
}

static void new_voice(void)
{
    uint8_t bytes[TMS_VOICE_LIMIT + 1] = {0};
    voice_length = damage_voice(bytes, fill_voice(bytes));
    guarded_pages_writable(areas[VOICE].pages, areas[VOICE].length, 1);
    uint8_t *placed = (uint8_t *)fresh(VOICE, voice_length);
    memcpy(placed, bytes, voice_length);
    voice = (const uint8_t *)null_or(placed, voice_length);
    guarded_pages_writable(areas[VOICE].pages, areas[VOICE].length, 0);
}

static void new_image(void)
{
    image_length = one_in(8) ? below(2) : 1 + below(300);
    if (one_in(100))
        image_length = TMS_IMAGE_LIMIT + below(2);
    guarded_pages_writable(areas[IMAGE].pages, areas[IMAGE].length, 1);
    image = (const uint8_t *)null_or(fresh(IMAGE, image_length), image_length);
    guarded_pages_writable(areas[IMAGE].pages, areas[IMAGE].length, 0);
}

/* The chip that the last call left, now and then with a number changed, to any other or to a near one. */
static void new_chip(void)
{
    chip = (tms_chip *)fresh(CHIP, sizeof *chip);
    *chip = kept;
    if (one_in(16)) {
        uint32_t any = next() << 1;
        int32_t *number = &chip->n[below(TMS_CHIP)];
        if (one_in(2))
            memcpy(number, &any, sizeof any);
        else
            *number = (int32_t)below(9) - 4;
    }
    before = *chip;
}

/* Five loads and Speak, or Speak External and bytes. */
static void fill_queue(void)
{
    if (one_in(2)) {
        uint32_t address = below((uint32_t)image_length + 1);
        queue[queued++] = TMS_SPEAK;
        for (int i = 4; i >= 0; i--)
            queue[queued++] = (uint8_t)(TMS_LOAD_ADDRESS | (address >> 4 * i & 15));
    } else {
        while (queued < TMS_FIFO_START + 4)
            queue[queued++] = (uint8_t)next();
        queue[queued++] = TMS_SPEAK_EXTERNAL;
    }
    if (one_in(2))
        queue[queued++] = TMS_RESET;
}

static uint8_t byte_to_write(void)
{
    if (queued == 0 && one_in(2))
        return (uint8_t)next();
    if (queued == 0)
        fill_queue();
    return queue[--queued];
}

static uint8_t image_fault(void)
{
    return image_length == 0 || image_length > TMS_IMAGE_LIMIT ? TMS_IMAGE : TMS_TAKEN;
}

static uint8_t first_of(uint8_t one, uint8_t other)
{
    return one != TMS_TAKEN ? one : other;
}

static int number_at(const uint8_t *bytes)
{
    int number = bytes[0] << 8 | bytes[1];
    return number < 0x8000 ? number : number - 0x10000;
}

static int voice_value_is_bad(int i)
{
    int value = number_at(voice + 3 + 2 * i);
    if (i == 0 || i == 15)
        return value != 0;
    if (i < 15)
        return value < 0 || value > 1023;
    return i < 79 ? value < 1 || value > 1023 : value < -512 || value > 511;
}

static uint8_t voice_fault(void)
{
    if (voice_length < VOICE_LEAST || voice_length > TMS_VOICE_LIMIT)
        return TMS_VOICE_SIZE;
    size_t field = (size_t)voice[0] << 8 | voice[1], pulses = voice[497];
    if (field != voice_length - 2)
        return TMS_VOICE_LENGTH;
    if (voice[2] != 1)
        return TMS_VOICE_VERSION;
    for (int i = 0; i < 247; i++)
        if (voice_value_is_bad(i))
            return TMS_VOICE_VALUE;
    return pulses == 0 || pulses > 64 || field != 496 + pulses ? TMS_VOICE_PULSE : TMS_TAKEN;
}

static int waits(uint8_t byte)
{
    int mode = before.n[TMS_N_MODE];
    if (before.n[TMS_N_BUSY] > 0)
        return 1;
    if (mode == TMS_FROM_ROM)
        return (byte & 0x70) != TMS_RESET;
    return mode == TMS_EXTERNAL && before.n[TMS_N_LEVEL] == TMS_FIFO_SIZE;
}

static int is_beyond(uint8_t byte)
{
    size_t position = (size_t)before.n[TMS_N_POSITION], bits = 8 * image_length;
    if (before.n[TMS_N_MODE] != TMS_IDLE)
        return 0;
    switch (byte & 0x70) {
    case TMS_READ_BYTE: return position + 8 > bits;
    case TMS_READ_AND_BRANCH: return position / 8 + 2 > image_length;
    case TMS_SPEAK: return position >= bits;
    default: return 0;
    }
}

static uint8_t write_fault(uint8_t byte)
{
    uint8_t fault = first_of(image_fault(), tms_check(&before));
    return first_of(fault, waits(byte) ? TMS_WAIT : is_beyond(byte) ? TMS_BEYOND : TMS_TAKEN);
}

static uint8_t step_fault(void)
{
    return first_of(first_of(image_fault(), voice_fault()), tms_check(&before));
}

static unsigned field(size_t bit, int width)
{
    unsigned value = 0;
    for (; width > 0; width--, bit++)
        value = value << 1 | (image[bit / 8] >> (7 - bit % 8) & 1u);
    return value;
}

/* The bits of the frame at a bit, of which `left` are there, as far as can be told; `prefix` is its rate bits. */
static size_t frame_bits(size_t bit, size_t left, size_t prefix)
{
    if (left < prefix + 4)
        return prefix + 4;
    unsigned energy = field(bit + prefix, 4);
    if (energy == 0 || energy == 15)
        return prefix + 4;
    if (left < prefix + 11 || field(bit + prefix + 4, 1))
        return prefix + 11;
    return prefix + (field(bit + prefix + 5, 6) == 0 ? 29 : 50);
}

/* The phrase at an address that lies in the image, frame by frame. */
static uint8_t walk(size_t address, uint8_t v, uint8_t rr, tms_phrase *found)
{
    size_t end = 8 * image_length, at = 8 * address, prefix = v ? 2 : 0;
    memset(found, 0, sizeof *found);
    for (;;) {
        size_t bits = frame_bits(at, end - at, prefix);
        if (bits > end - at) {
            memset(found, 0, sizeof *found);
            found->begun = at;
            found->missing = bits - (end - at);
            return TMS_NO_PHRASE;
        }
        found->frames++;
        found->samples += 200 - 50 * (v ? field(at, 2) : rr);
        int stop = field(at + prefix, 4) == 15;
        at += bits;
        if (stop)
            break;
    }
    found->intervals = found->samples / 25;
    found->bits = at - 8 * address;
    found->offset = address;
    found->length = (found->bits + 7) / 8;
    return TMS_TAKEN;
}

static uint8_t try_power_up(void)
{
    uint8_t device = (uint8_t)below(3), order = (uint8_t)below(3), refusal = tms_power_up(chip, device, order);
    want(refusal == (device > 1 || order > 1 ? TMS_STATE : TMS_TAKEN), "power-up: the refusal");
    if (refusal == TMS_TAKEN)
        want(chip->n[TMS_N_DEVICE] == device && chip->n[TMS_N_BIT_ORDER] == order && tms_check(chip) == TMS_TAKEN, "power-up: the chip");
    return refusal;
}

static uint8_t try_write(void)
{
    uint8_t byte = byte_to_write(), refusal = tms_write(chip, image, image_length, byte);
    want(refusal == write_fault(byte), "write: the refusal");
    return refusal;
}

/* A read is a look and an acknowledge. */
static uint8_t try_read(void)
{
    uint8_t *byte = (uint8_t *)fresh(BYTE, 1), looked, refusal = tms_look(chip, byte);
    want(memcmp(chip, &before, sizeof before) == 0, "look: the chip has changed");
    want(refusal == tms_check(&before) && (refusal == TMS_TAKEN || *byte == 0), "look: the answer");
    looked = *byte;
    byte = (uint8_t *)fresh(BYTE, 1);
    want(tms_read(chip, byte) == refusal && *byte == looked, "read: the answer");
    tms_chip acknowledged = before;
    want(tms_acknowledge(&acknowledged) == refusal && memcmp(chip, &acknowledged, sizeof *chip) == 0, "read: the chip");
    return refusal;
}

static uint8_t try_acknowledge(void)
{
    uint8_t refusal = tms_acknowledge(chip);
    want(refusal == tms_check(&before), "acknowledge: the refusal");
    return refusal;
}

static uint8_t try_step(void)
{
    int16_t *sample = (int16_t *)fresh(SAMPLE, sizeof *sample);
    uint8_t *report = (uint8_t *)fresh(REPORT, 1);
    tms_frame *frame = (tms_frame *)fresh(FRAME, sizeof *frame);
    tms_bits *bits = (tms_bits *)fresh(BITS, sizeof *bits);
    uint8_t refusal = tms_step(chip, image, image_length, voice, voice_length, sample, report, frame, bits);
    want(refusal == step_fault(), "step: the refusal");
    want(*report <= TMS_RAN_OUT, "step: the report");
    want(*sample >= TMS_SAMPLE_MIN && *sample <= TMS_SAMPLE_MAX, "step: the sample");
    want((frame->kind == TMS_STOP_FRAME) == (*report == TMS_STOP), "step: the stop");
    want((frame->kind == TMS_NO_FRAME) == (*report == TMS_NOTHING || *report == TMS_RAN_OUT), "step: the frame");
    want(*report == TMS_RAN_OUT || (bits->begun == 0 && bits->used_up == 0 && bits->missing == 0), "step: bits without running out");
    want(*report == TMS_STOP || bits->thrown == 0, "step: bits thrown without a stop");
    if (refusal != TMS_TAKEN)
        want(*sample == 0 && *report == 0 && is_zero(frame, sizeof *frame) && is_zero(bits, sizeof *bits), "step: zeros");
    else
        reports[*report]++;
    return refusal;
}

/* A run that is taken is as many steps. */
static void step_along(const int16_t *out, size_t length)
{
    tms_chip stepped = before;
    for (size_t i = 0; i < length; i++) {
        int16_t sample;
        uint8_t report;
        tms_frame frame;
        tms_bits bits;
        tms_step(&stepped, image, image_length, voice, voice_length, &sample, &report, &frame, &bits);
        want(sample == out[i], "run: not the sample of a step");
        reports[report]++;
    }
    want(memcmp(&stepped, chip, sizeof stepped) == 0, "run: not the chip of its steps");
}

static uint8_t try_run(void)
{
    int16_t was[LONGEST_RUN];
    size_t length = one_in(16) ? 0 : below(LONGEST_RUN + 1);
    int16_t *out = (int16_t *)fresh(OUT, length * sizeof *out);
    memcpy(was, out, length * sizeof *out);
    uint8_t refusal = tms_run(chip, image, image_length, voice, voice_length, (int16_t *)null_or(out, length), length);
    want(refusal == step_fault(), "run: the refusal");
    if (refusal != TMS_TAKEN)
        want(memcmp(was, out, length * sizeof *out) == 0, "run: refused, and the buffer has changed");
    else if (one_in(4))
        step_along(out, length);
    return refusal;
}

/* An address in the image or past its end. */
static size_t any_place(size_t limit)
{
    return one_in(16) ? (size_t)next() << below(33) : below((uint32_t)(limit + limit / 8 + 2));
}

static uint8_t try_walk(void)
{
    tms_phrase *phrase = (tms_phrase *)fresh(PHRASE, sizeof *phrase), found = {0, 0, 0, 0, 0, 0, 0, 0};
    size_t address = any_place(image_length);
    int rated = one_in(2);
    uint8_t v = rated ? (uint8_t)below(3) : 0, rr = rated ? (uint8_t)below(5) : 0;
    uint8_t refusal = rated ? tms_walk_5220c(image, image_length, address, v, rr, phrase) : tms_walk(image, image_length, address, phrase);
    uint8_t wanted = first_of(image_fault(), v > 1 || rr > 3 ? TMS_STATE : address >= image_length ? TMS_BEYOND : TMS_TAKEN);
    if (wanted == TMS_TAKEN)
        wanted = walk(address, v, rr, &found);
    want(refusal == wanted, "walk: the refusal");
    want(memcmp(phrase, &found, sizeof found) == 0, "walk: the phrase");
    return refusal;
}

static uint8_t try_frame(void)
{
    tms_frame *frame = (tms_frame *)fresh(FRAME, sizeof *frame);
    tms_extent *extent = (tms_extent *)fresh(EXTENT, sizeof *extent), found = {0, 0, 0};
    size_t bit = any_place(8 * image_length);
    int rated = one_in(2);
    uint8_t v = rated ? (uint8_t)below(3) : 0;
    uint8_t refusal =
        rated ? tms_frame_at_5220c(image, image_length, bit, v, frame, extent) : tms_frame_at(image, image_length, bit, frame, extent);
    uint8_t wanted = first_of(image_fault(), v > 1 ? TMS_STATE : bit >= 8 * image_length ? TMS_BEYOND : TMS_TAKEN);
    if (wanted == TMS_TAKEN) {
        size_t left = 8 * image_length - bit, bits = frame_bits(bit, left, v ? 2 : 0);
        wanted = bits > left ? TMS_NO_PHRASE : TMS_TAKEN;
        found.bits = bits > left ? 0 : bits;
        found.begun = bits > left ? bit : 0;
        found.missing = bits > left ? bits - left : 0;
    }
    want(refusal == wanted, "frame: the refusal");
    want(memcmp(extent, &found, sizeof found) == 0, "frame: its bits");
    want(refusal == TMS_TAKEN ? frame->kind >= TMS_SILENCE && frame->kind <= TMS_VOICED : is_zero(frame, sizeof *frame), "frame: its kind");
    return refusal;
}

static uint8_t try_voice(void)
{
    uint8_t refusal = tms_voice_check(voice, voice_length);
    want(refusal == voice_fault(), "voice: the refusal");
    return refusal;
}

static uint8_t try_any(void)
{
    switch (below(16)) {
    case 0: return one_in(4) ? try_power_up() : try_voice();
    case 1: return try_read();
    case 2: return try_acknowledge();
    case 3: return try_walk();
    case 4: return try_frame();
    case 5: case 6: case 7: return try_step();
    case 8: case 9: return try_run();
    default: return try_write();
    }
}

static void make_call(void)
{
    if (call % WORLD == 0) {
        new_image();
        new_voice();
    }
    new_chip();
    uint8_t refusal = try_any();
    want(refusal <= TMS_NO_PHRASE, "no refusal number");
    want(refusal == TMS_TAKEN || memcmp(chip, &before, sizeof before) == 0, "refused, and the chip has changed");
    refusals[refusal]++;
    if (tms_check(chip) == TMS_TAKEN)
        kept = *chip;
}

static int print_counts(const char *what, const unsigned long *counts, int last)
{
    int all = 1;
    printf(", %s", what);
    for (int i = 0; i <= last; i++) {
        printf(" %lu", counts[i]);
        all &= counts[i] > 0;
    }
    return all;
}

int main(int argc, char **argv)
{
    if (argc != 3) {
        fprintf(stderr, "usage: random SEED CALLS\n");
        return 2;
    }
    seed = strtoull(argv[1], NULL, 0);
    unsigned long calls = strtoul(argv[2], NULL, 0);
    for (int i = 0; i < AREAS; i++)
        areas[i].pages = guarded_pages(i == IMAGE ? TMS_IMAGE_LIMIT + 1 : LONGEST_RUN * sizeof(int16_t), &areas[i].length);
    tms_power_up(&kept, TMS_5220, TMS_LEAST_FIRST);
    for (call = 0; call < calls; call++)
        make_call();
    printf("%lu calls", calls);
    int all = print_counts("refusals 0 to 10:", refusals, TMS_NO_PHRASE) & print_counts("reports 0 to 3:", reports, TMS_RAN_OUT);
    printf(all ? "\n" : ": some were never seen\n");
    return !all;
}
