/* Plays a trace script from standard input (docs/TRACE.md) through the C functions, and prints the answers that `trace` prints. */
#include <stdio.h>
#include <stdlib.h>
#include <string.h>
#include "tms5220.h"

enum { LIMIT = 1048576, LONGEST_RUN = 8192, UNTOUCHED = 9999 };

static uint8_t script[LIMIT + 1];
static const uint8_t *image, *voice;
static size_t image_length, voice_length;
static tms_chip chip;

static uint32_t word(const uint8_t *p)
{
    return p[0] | (uint32_t)p[1] << 8 | (uint32_t)p[2] << 16 | (uint32_t)p[3] << 24;
}

/* A number of a state. Scripts keep to the format's ranges, so that its low 32 bits say it; a position from 2^31 on, which no chip has,
   stays in the number's bits. */
static int32_t state_number(const uint8_t *p)
{
    uint32_t low = word(p);
    int32_t number;
    memcpy(&number, &low, sizeof number);
    return number;
}

static void print_chip(void)
{
    putchar('C');
    for (int i = 0; i < TMS_CHIP; i++)
        if (i == TMS_N_POSITION)
            printf(" %lu", (unsigned long)(uint32_t)chip.n[i]);
        else
            printf(" %ld", (long)chip.n[i]);
    putchar('\n');
}

static void print_frame(const tms_frame *frame)
{
    printf(" %u %u %u", frame->kind, frame->energy, frame->pitch);
    for (int i = 0; i < 10; i++)
        printf(" %u", frame->k[i]);
}

static void print_phrase(char letter, uint8_t refusal, const tms_phrase *phrase)
{
    unsigned sum = 0;
    for (size_t i = 0; i < phrase->length; i++)
        sum += image[phrase->offset + i];
    printf("%c %u %zu %zu %zu %zu %zu %u %zu %zu\n", letter, refusal, phrase->bits, phrase->frames, phrase->intervals, phrase->samples,
           phrase->length, sum & 0xFFFF, phrase->begun, phrase->missing);
}

static void step(void)
{
    int16_t sample;
    uint8_t report;
    tms_frame frame;
    tms_bits bits;
    uint8_t refusal = tms_step(&chip, image, image_length, voice, voice_length, &sample, &report, &frame, &bits);
    printf("T %u %d %u", refusal, sample, report);
    print_frame(&frame);
    printf(" %u %zu %zu %zu %zu\n", frame.rate, bits.begun, bits.used_up, bits.missing, bits.thrown);
}

static void run(uint32_t count)
{
    static int16_t out[LONGEST_RUN];
    int touched = 0;
    for (uint32_t i = 0; i < count; i++)
        out[i] = UNTOUCHED;
    uint8_t refusal = tms_run(&chip, image, image_length, voice, voice_length, out, count);
    printf("U %u %lu", refusal, refusal == TMS_TAKEN ? (unsigned long)count : 0UL);
    for (uint32_t i = 0; i < count; i++)
        if (refusal == TMS_TAKEN)
            printf(" %d", out[i]);
        else
            touched |= out[i] != UNTOUCHED;
    puts(touched ? " touched" : "");
}

/* The bytes of the record at p, of which `left` are there; 0 where it is cut off or bad. */
static size_t record_length(const uint8_t *p, size_t left)
{
    size_t length;
    switch (p[0]) {
    case 'P': case 'Q': case 'R': case 'L': case 'K': case 'T': length = 1; break;
    case 'W': length = 2; break;
    case 'O': length = 3; break;
    case 'F': case 'A': case 'U': length = 5; break;
    case 'G': length = 6; break;
    case 'B': length = 7; break;
    case 'S': length = 1 + 8 * TMS_CHIP; break;
    case 'I': case 'V': length = left < 5 ? 5 : 5 + (size_t)word(p + 1); break;
    default: return 0;
    }
    if (left < length || (p[0] == 'U' && word(p + 1) > LONGEST_RUN) || (p[0] == 'O' && (p[1] > 1 || p[2] > 1)))
        return 0;
    return length;
}

/* Plays a record that is whole. */
static void play(const uint8_t *p)
{
    uint8_t refusal, byte;
    tms_frame frame;
    tms_extent extent;
    tms_phrase phrase;
    switch (p[0]) {
    case 'I':
        image = p + 5;
        image_length = word(p + 1);
        printf("I %zu\n", image_length);
        return;
    case 'V':
        voice = p + 5;
        voice_length = word(p + 1);
        printf("V %u\n", tms_voice_check(voice, voice_length));
        return;
    case 'F':
        refusal = tms_frame_at(image, image_length, word(p + 1), &frame, &extent);
        printf("F %u %zu", refusal, extent.bits);
        print_frame(&frame);
        printf(" %zu %zu\n", extent.begun, extent.missing);
        return;
    case 'G':
        refusal = tms_frame_at_5220c(image, image_length, word(p + 2), p[1], &frame, &extent);
        printf("G %u %zu", refusal, extent.bits);
        print_frame(&frame);
        printf(" %u %zu %zu\n", frame.rate, extent.begun, extent.missing);
        return;
    case 'A':
        refusal = tms_walk(image, image_length, word(p + 1), &phrase);
        print_phrase('A', refusal, &phrase);
        return;
    case 'B':
        refusal = tms_walk_5220c(image, image_length, word(p + 3), p[1], p[2], &phrase);
        print_phrase('B', refusal, &phrase);
        return;
    case 'P':
        printf("P %u\n", tms_power_up(&chip, TMS_5220, TMS_LEAST_FIRST));
        break;
    case 'Q':
        printf("Q %u\n", tms_power_up(&chip, TMS_5220C, TMS_LEAST_FIRST));
        break;
    case 'O':
        printf("O %u\n", tms_power_up(&chip, p[1], p[2]));
        break;
    case 'S':
        for (int i = 0; i < TMS_CHIP; i++)
            chip.n[i] = state_number(p + 1 + 8 * i);
        break;
    case 'W':
        printf("W %u\n", tms_write(&chip, image, image_length, p[1]));
        break;
    case 'R':
        refusal = tms_read(&chip, &byte);
        printf("R %u %u\n", refusal, byte);
        break;
    case 'L':
        refusal = tms_look(&chip, &byte);
        printf("L %u %u\n", refusal, byte);
        break;
    case 'K':
        printf("K %u\n", tms_acknowledge(&chip));
        break;
    case 'T':
        step();
        break;
    case 'U':
        run(word(p + 1));
        break;
    }
    print_chip();
}

int main(void)
{
    size_t length = fread(script, 1, sizeof script, stdin), at = 0, bytes;
    tms_power_up(&chip, TMS_5220, TMS_LEAST_FIRST);
    while (length <= LIMIT && at < length && (bytes = record_length(script + at, length - at)) > 0) {
        play(script + at);
        at += bytes;
    }
    if (at < length)
        puts("bad script");
    return 0;
}
