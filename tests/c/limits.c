/* What tms5220.h says of sizes and of the stack. The library takes the structs as arrays: a size that differs does not compile. Stack is
   measured: limits ROM VOICE ADDRESS makes every call on a stack of its own (bench/stack.c), in the middle of a phrase and at its end. */
#include <stdio.h>
#include <stdlib.h>
#include "stack.h"
#include "tms5220.h"

#define HOLDS(name, condition) typedef char name[(condition) ? 1 : -1]

HOLDS(chip_is_its_numbers, sizeof(tms_chip) == 4 * TMS_CHIP && sizeof(tms_chip) == 276);
HOLDS(frame_is_14_bytes, sizeof(tms_frame) == 14 && offsetof(tms_frame, k) == 3 && offsetof(tms_frame, rate) == 13);
HOLDS(bits_are_4_words, sizeof(tms_bits) == 32 && sizeof(size_t) == 8 && offsetof(tms_bits, thrown) == 24);
HOLDS(extent_is_3_words, sizeof(tms_extent) == 24 && offsetof(tms_extent, missing) == 16);
HOLDS(phrase_is_8_words, sizeof(tms_phrase) == 64 && offsetof(tms_phrase, length) == 56);
HOLDS(numbers_end_with_the_chip, TMS_N_FIFO + TMS_FIFO_SIZE == TMS_N_SOUNDING && TMS_N_FILTER + 10 == TMS_N_DEVICE && TMS_N_BUSY + 1 == TMS_CHIP);

static uint8_t image[TMS_IMAGE_LIMIT], voice[TMS_VOICE_LIMIT];
static size_t image_length, voice_length, address;

/* A chip before a frame, before the stop, and so on. */
static tms_chip start, chip;

static uint8_t byte, report;
static int16_t sample, out[TMS_FRAME_SAMPLES];
static tms_frame frame;
static tms_bits bits;
static tms_extent extent;
static tms_phrase phrase;

static void call_power_up(void) { tms_power_up(&chip, TMS_5220C, TMS_MOST_FIRST); }
static void call_check(void) { tms_check(&start); }
static void call_read(void) { chip = start; tms_read(&chip, &byte); }
static void call_look(void) { tms_look(&start, &byte); }
static void call_acknowledge(void) { chip = start; tms_acknowledge(&chip); }
static void call_step(void) { chip = start; tms_step(&chip, image, image_length, voice, voice_length, &sample, &report, &frame, &bits); }
static void call_run(void) { chip = start; tms_run(&chip, image, image_length, voice, voice_length, out, TMS_FRAME_SAMPLES); }
static void call_walk(void) { tms_walk(image, image_length, address, &phrase); }
static void call_walk_5220c(void) { tms_walk_5220c(image, image_length, address, 1, 0, &phrase); }
static void call_frame(void) { tms_frame_at(image, image_length, 8 * address, &frame, &extent); }
static void call_frame_5220c(void) { tms_frame_at_5220c(image, image_length, 8 * address, 1, &frame, &extent); }
static void call_voice_check(void) { tms_voice_check(voice, voice_length); }

static void call_write(void)
{
    for (int command = 0; command < 0x80; command += 0x10) {
        chip = start;
        tms_write(&chip, image, image_length, (uint8_t)command);
    }
}

static void (*const calls[])(void) = {call_power_up, call_check, call_read, call_look, call_acknowledge, call_step, call_run, call_walk,
                                      call_walk_5220c, call_frame, call_frame_5220c, call_voice_check, call_write};

static size_t load(const char *path, uint8_t *bytes, size_t limit)
{
    FILE *from = fopen(path, "rb");
    if (!from) {
        perror(path);
        exit(2);
    }
    size_t length = fread(bytes, 1, limit, from);
    fclose(from);
    return length;
}

/* The deepest of all calls on the chip `start`. */
static size_t deepest(void)
{
    size_t most = 0;
    for (size_t i = 0; i < sizeof calls / sizeof *calls; i++) {
        size_t used = stack_use(calls[i]);
        most = used > most ? used : most;
    }
    return most;
}

/* The deepest while a phrase is spoken, from ROM or through the FIFO, which runs out. */
static size_t deepest_in_speech(uint8_t device, int external)
{
    size_t most = 0;
    tms_power_up(&start, device, TMS_MOST_FIRST);
    for (int i = 0; i < 5; i++)
        tms_write(&start, image, image_length, (uint8_t)(TMS_LOAD_ADDRESS | (address >> 4 * i & 15)));
    tms_write(&start, image, image_length, external ? TMS_SPEAK_EXTERNAL : TMS_SPEAK);
    for (int i = 0; external && i < TMS_FIFO_SIZE; i++)
        tms_write(&start, image, image_length, image[address + (size_t)i]);
    while (tms_sounding(&start)) {
        size_t used = deepest();
        most = used > most ? used : most;
        tms_run(&start, image, image_length, voice, voice_length, out, 25);
    }
    return most;
}

int main(int argc, char **argv)
{
    if (argc != 4) {
        fprintf(stderr, "usage: limits ROM VOICE ADDRESS\n");
        return 2;
    }
    image_length = load(argv[1], image, sizeof image);
    voice_length = load(argv[2], voice, sizeof voice);
    address = strtoul(argv[3], NULL, 0);
    size_t most = 0;
    for (uint8_t device = TMS_5220; device <= TMS_5220C; device++)
        for (int external = 0; external < 2; external++) {
            size_t used = deepest_in_speech(device, external);
            most = used > most ? used : most;
        }
    printf("%zu bytes of stack, of %d\n", most, TMS_STACK);
    return most == 0 || most > TMS_STACK;
}
