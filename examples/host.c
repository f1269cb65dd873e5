/* A host of the chip: host ROM VOICE ADDRESS

   It speaks the phrase at a byte address of a ROM image, then the same bytes through the FIFO, fed on the interrupt when the buffer is
   low, and does each once more with the chip saved and resumed in the middle. All four times the samples have to be the same: the status is
   1 where they are not, and where a call is refused. */
#include <stdio.h>
#include <stdlib.h>
#include <string.h>
#include "tms5220.h"

enum {
    TURN = 25,           /* samples between two looks at the interrupt; every phrase has a whole number of turns */
    SAVED = 4 * TMS_CHIP /* bytes of a chip that is saved */
};

typedef struct {
    uint8_t *bytes;
    size_t length;
} file;

/* What is to be spoken. */
typedef struct {
    file image, voice;
    size_t address;
    tms_phrase phrase;
} speech;

static void fail(const char *what, unsigned refusal)
{
    fprintf(stderr, "host: %s: refused %u\n", what, refusal);
    exit(1);
}

static void expect_taken(const char *what, uint8_t refusal)
{
    if (refusal != TMS_TAKEN)
        fail(what, refusal);
}

static void write_byte(tms_chip *chip, const speech *s, uint8_t byte)
{
    expect_taken("write", tms_write(chip, s->image.bytes, s->image.length, byte));
}

/* A turn of the host's loop makes the next samples. */
static void run(tms_chip *chip, const speech *s, int16_t *samples)
{
    expect_taken("run", tms_run(chip, s->image.bytes, s->image.length, s->voice.bytes, s->voice.length, samples, TURN));
}

/* The numbers of a chip as bytes that any machine reads, for a file, say. */
static void save(const tms_chip *chip, uint8_t *bytes)
{
    for (int i = 0; i < SAVED; i++)
        bytes[i] = (uint8_t)((uint32_t)chip->n[i / 4] >> 8 * (i % 4));
}

/* A file may be damaged: a chip is resumed once it is checked. */
static void resume(tms_chip *chip, const uint8_t *bytes)
{
    for (int i = 0; i < TMS_CHIP; i++) {
        uint32_t number = 0;
        for (int j = 3; j >= 0; j--)
            number = number << 8 | bytes[4 * i + j];
        memcpy(&chip->n[i], &number, sizeof number);
    }
    expect_taken("resume", tms_check(chip));
}

/* In between, the chip is gone. */
static void save_and_resume(tms_chip *chip)
{
    uint8_t bytes[SAVED];
    save(chip, bytes);
    memset(chip, 0xA5, sizeof *chip);
    resume(chip, bytes);
}

/* The turn in the middle of the phrase. */
static size_t middle(const speech *s)
{
    return s->phrase.samples / 2 / TURN * TURN;
}

static void power_up(tms_chip *chip)
{
    expect_taken("power-up", tms_power_up(chip, TMS_5220, TMS_MOST_FIRST));
}

/* Speaks from the ROM. */
static void speak_rom(const speech *s, int suspend, int16_t *samples)
{
    tms_chip chip;
    power_up(&chip);
    for (int i = 0; i < 5; i++) /* five nibbles, the lowest first */
        write_byte(&chip, s, (uint8_t)(TMS_LOAD_ADDRESS | (s->address >> 4 * i & 15)));
    write_byte(&chip, s, TMS_SPEAK);
    for (size_t at = 0; at < s->phrase.samples; at += TURN) {
        if (suspend && at == middle(s))
            save_and_resume(&chip);
        run(&chip, s, samples + at);
    }
}

/* Writes bytes of the phrase from the byte `next` on until the FIFO is full, and gives the byte to go on with. */
static size_t feed(tms_chip *chip, const speech *s, size_t next)
{
    while (next < s->phrase.length) {
        uint8_t refusal = tms_write(chip, s->image.bytes, s->image.length, s->image.bytes[s->phrase.offset + next]);
        if (refusal == TMS_WAIT)
            break;
        expect_taken("feed", refusal);
        next++;
    }
    return next;
}

/* Answers the interrupt: only a chip that still talks takes bytes into the FIFO, to any other they are commands. */
static size_t answer(tms_chip *chip, const speech *s, size_t next)
{
    uint8_t status;
    expect_taken("read", tms_read(chip, &status));
    return status & TMS_TALK && status & TMS_BUFFER_LOW ? feed(chip, s, next) : next;
}

/* Speaks the same bytes through the FIFO, which has been powered up with the image's bit order. */
static void speak_external(const speech *s, int suspend, int16_t *samples)
{
    tms_chip chip;
    power_up(&chip);
    write_byte(&chip, s, TMS_SPEAK_EXTERNAL);
    size_t next = feed(&chip, s, 0);
    for (size_t i = next; i < TMS_FIFO_START; i++) /* a short phrase: stops behind it, so that the chip starts */
        write_byte(&chip, s, 0xFF);
    for (size_t at = 0; at < s->phrase.samples; at += TURN) {
        if (suspend && at == middle(s))
            save_and_resume(&chip);
        run(&chip, s, samples + at);
        if (tms_interrupt(&chip))
            next = answer(&chip, s, next);
    }
}

static void *room(size_t size)
{
    void *memory = malloc(size);
    if (!memory && size > 0) {
        fprintf(stderr, "host: there is no memory\n");
        exit(1);
    }
    return memory;
}

static file load(const char *path)
{
    FILE *from = fopen(path, "rb");
    if (!from || fseek(from, 0, SEEK_END)) {
        perror(path);
        exit(1);
    }
    file loaded = {NULL, (size_t)ftell(from)};
    loaded.bytes = (uint8_t *)room(loaded.length);
    rewind(from);
    loaded.length = fread(loaded.bytes, 1, loaded.length, from);
    fclose(from);
    return loaded;
}

static const char *compared(const int16_t *one, const int16_t *other, size_t size, int *all)
{
    int same = memcmp(one, other, size) == 0;
    *all &= same;
    return same ? "the same" : "DIFFERENT";
}

/* Speaks it four times, and tells whether the samples are the same. */
static int speak_all(const speech *s)
{
    size_t size = s->phrase.samples * sizeof(int16_t);
    int16_t *first = (int16_t *)room(size), *again = (int16_t *)room(size);
    int same = 1;
    speak_rom(s, 0, first);
    printf("%zu frames, %zu samples", s->phrase.frames, s->phrase.samples);
    speak_rom(s, 1, again);
    printf("; resumed %s", compared(first, again, size, &same));
    speak_external(s, 0, again);
    printf(", external %s", compared(first, again, size, &same));
    speak_external(s, 1, again);
    printf(", external and resumed %s\n", compared(first, again, size, &same));
    free(first);
    free(again);
    return same;
}

int main(int argc, char **argv)
{
    if (argc != 4) {
        fprintf(stderr, "usage: host ROM VOICE ADDRESS\n");
        return 2;
    }
    if (tms_abi() != TMS_ABI)
        fail("the header and the library are not of one interface", tms_abi());
    speech s;
    s.image = load(argv[1]);
    s.voice = load(argv[2]);
    s.address = strtoul(argv[3], NULL, 0);
    expect_taken("phrase", tms_walk(s.image.bytes, s.image.length, s.address, &s.phrase));
    expect_taken("voice", tms_voice_check(s.voice.bytes, s.voice.length));
    int same = speak_all(&s);
    free(s.image.bytes);
    free(s.voice.bytes);
    return !same;
}
