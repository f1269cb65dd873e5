#include "work.h"
#include "inputs.h"

bool digesting;
struct digest digest;

static struct image image;
static uint8_t voice[562];
static size_t voice_length;

/* the samples of one phrase: 25,000 voiced frames, which an image holds */
enum { PHRASE = 5000000 };
static int16_t out[PHRASE];

static void fold(uint64_t *into, uint64_t number)
{
    *into = (*into ^ number) * 1099511628211u;
}

static void note(uint64_t number)
{
    if (digesting)
        fold(&digest.answers, number);
}

static void note_samples(size_t n)
{
    for (size_t i = 0; digesting && i < n; i++)
        note((uint16_t)out[i]);
}

static void note_numbers(const tms_chip *chip)
{
    for (int i = 0; digesting && i < TMS_CHIP; i++)
        fold(&digest.numbers, (uint32_t)chip->n[i]);
}

/* ---- speech from ROM */

static void prepare_speech(struct mix mix)
{
    voice_length = make_voice(voice);
    make_image(&image, IMAGE_LIMIT, mix, 0);
}

static void prepare_voiced(void)
{
    prepare_speech(all_voiced);
}

static void prepare_loud(void)
{
    prepare_voiced();
    make_loud(voice);
}

static void prepare_unvoiced(void)
{
    prepare_speech(all_unvoiced);
}

static void prepare_mixed(void)
{
    prepare_speech(speech);
}

static void prepare_rate_zero(void)
{
    prepare_speech(speech_rate_zero);
}

struct host new_host(const struct version *by)
{
    return (struct host){.by = by, .image = image.bytes, .image_length = image.length, .voice = voice,
                         .voice_length = voice_length};
}

/* speech of so many samples into `out`; the first refusal */
typedef uint8_t speech_call(struct host *h, size_t samples);

/* As many phrases as the samples take. */
static void speak_by(speech_call *spoken, const struct version *by, size_t samples)
{
    while (samples > 0) {
        size_t part = samples < PHRASE ? samples : PHRASE;
        struct host h = new_host(by);
        note(spoken(&h, part));
        note_samples(part);
        note_numbers(&h.chip);
        samples -= part;
    }
}

static uint8_t speak_and_run(struct host *h, size_t samples)
{
    uint8_t refusal = speak(h, 0);
    return refusal ? refusal : play(h, out, samples);
}

static void run(const struct version *by, size_t samples)
{
    speak_by(speak_and_run, by, samples);
}

/* ---- the same by many calls, each of which takes the chip over the border and back */

static uint8_t speak_and_run_parts(struct host *h, size_t samples)
{
    uint8_t refusal = speak(h, 0);
    return refusal ? refusal : play_in_parts(h, out, samples);
}

static uint8_t speak_and_step(struct host *h, size_t samples)
{
    uint8_t refusal = speak(h, 0);
    return refusal ? refusal : play_by_steps(h, out, samples);
}

static void run_parts(const struct version *by, size_t samples)
{
    speak_by(speak_and_run_parts, by, samples);
}

static void step(const struct version *by, size_t samples)
{
    speak_by(speak_and_step, by, samples);
}

/* ---- a stop and nothing after it: all but the first 200 samples are those of a chip that does not sound */

static void prepare_stop(void)
{
    prepare_voiced();
    image.bytes[0] = 0xF0;
    image.length = 1;
}

/* ---- speech from ROM by a TMS5220C, at the rate of a TMS5220: told once, or before each frame */

static uint8_t run_at_rate(struct host *h, uint8_t v, size_t samples)
{
    uint8_t refusal = speak_rated(h, 0, v, 0);
    return refusal ? refusal : play(h, out, samples);
}

static uint8_t rate_told_once(struct host *h, size_t samples)
{
    return run_at_rate(h, 0, samples);
}

static uint8_t rate_told_before_frames(struct host *h, size_t samples)
{
    return run_at_rate(h, 1, samples);
}

static void run_5220c(const struct version *by, size_t samples)
{
    speak_by(rate_told_once, by, samples);
}

static void run_rate_bits(const struct version *by, size_t samples)
{
    speak_by(rate_told_before_frames, by, samples);
}

/* ---- external speech: the bytes of the image, in either bit order, and an image of one byte for the calls to take */

static void prepare_least_first(void)
{
    prepare_mixed();
    for (size_t i = 0; i < image.length; i++) {
        unsigned turned = 0;
        for (int bit = 0; bit < 8; bit++)
            turned |= (image.bytes[i] >> bit & 1) << (7 - bit);
        image.bytes[i] = turned;
    }
}

static uint8_t feed(struct host *h, enum tms_bit_order order, size_t samples)
{
    static const uint8_t rom[1];
    h->image = rom;
    h->image_length = sizeof rom;
    return speak_external(h, order, image.bytes, image.length, out, samples);
}

static uint8_t feed_most_first(struct host *h, size_t samples)
{
    return feed(h, TMS_MOST_FIRST, samples);
}

static uint8_t feed_least_first(struct host *h, size_t samples)
{
    return feed(h, TMS_LEAST_FIRST, samples);
}

static void external_most_first(const struct version *by, size_t samples)
{
    speak_by(feed_most_first, by, samples);
}

static void external_least_first(const struct version *by, size_t samples)
{
    speak_by(feed_least_first, by, samples);
}

/* ---- the walk */

static void prepare_silence(void)
{
    make_image(&image, IMAGE_LIMIT, all_silence, 0);
}

static void prepare_any_rate(void)
{
    make_image(&image, IMAGE_LIMIT, speech_any_rate, 0);
}

static void note_walk(uint8_t refusal, const tms_phrase *phrase)
{
    note(refusal);
    note(phrase->bits);
    note(phrase->frames);
    note(phrase->intervals);
    note(phrase->samples);
    note(phrase->begun);
    note(phrase->missing);
    note(phrase->offset);
    note(phrase->length);
}

static void walk_from(const struct version *by, size_t address)
{
    tms_phrase phrase;
    uint8_t refusal = by->walk(image.bytes, image.length, address, &phrase);
    note_walk(refusal, &phrase);
}

static void walk_rate_bits_from(const struct version *by, size_t address)
{
    tms_phrase phrase;
    uint8_t refusal = by->walk_5220c(image.bytes, image.length, address, 1, 0, &phrase);
    note_walk(refusal, &phrase);
}

typedef void from_call(const struct version *by, size_t address);

/* Walks of so many frames: the whole image as often as it takes, and a part of it, up to a stop that is put there. */
static void walk_by(from_call *from, const struct version *by, size_t frames)
{
    for (; frames >= image.count; frames -= image.count)
        from(by, 0);
    if (frames == 0)
        return;
    unsigned old = put_energy(&image, frames - 1, 15);
    from(by, 0);
    put_energy(&image, frames - 1, old);
}

static void walk(const struct version *by, size_t frames)
{
    walk_by(walk_from, by, frames);
}

static void walk_rate_bits(const struct version *by, size_t frames)
{
    walk_by(walk_rate_bits_from, by, frames);
}

static void prepare_phrases(void)
{
    make_image(&image, 16384, speech, 60);
}

static void walk_each(const struct version *by, size_t walks)
{
    for (size_t i = 0; i < walks; i++)
        walk_from(by, i % image.length);
}

/* ---- the voice file */

static void prepare_voice(void)
{
    voice_length = make_voice(voice);
}

static void check(const struct version *by, size_t checks)
{
    for (size_t i = 0; i < checks; i++)
        note(by->voice_check(voice, voice_length));
}

const struct workload workloads[] = {
    {"run, voiced", "sample", 10000000, 20000, 120000, prepare_voiced, run},
    {"run, unvoiced", "sample", 10000000, 20000, 120000, prepare_unvoiced, run},
    {"run, mixed", "sample", 10000000, 20000, 120000, prepare_mixed, run},
    {"run, mixed, 5220C", "sample", 10000000, 20000, 120000, prepare_mixed, run_5220c},
    {"run, mixed, rate bits", "sample", 10000000, 20000, 120000, prepare_rate_zero, run_rate_bits},
    {"run, voiced, loud", "sample", 10000000, 20000, 120000, prepare_loud, run},
    {"run, silent", "sample", 10000000, 20000, 120000, prepare_stop, run},
    {"external speech, most first", "sample", 2000000, 20000, 120000, prepare_mixed, external_most_first},
    {"external speech, least first", "sample", 2000000, 20000, 120000, prepare_least_first, external_least_first},
    {"run of 100, mixed", "sample", 10000000, 20000, 120000, prepare_mixed, run_parts},
    {"step by step, mixed", "sample", 2000000, 2000, 12000, prepare_mixed, step},
    {"walk, silence", "frame", 5000000, 100000, 500000, prepare_silence, walk},
    {"walk, voiced", "frame", 2000000, 10000, 40000, prepare_voiced, walk},
    {"walk, mixed", "frame", 2000000, 10000, 40000, prepare_mixed, walk},
    {"walk, mixed, rate bits", "frame", 2000000, 10000, 40000, prepare_any_rate, walk_rate_bits},
    {"walk from each address", "walk", 163840, 16384, 32768, prepare_phrases, walk_each},
    {"voice check", "check", 200000, 1000, 3000, prepare_voice, check},
};

const size_t workload_count = sizeof workloads / sizeof *workloads;
