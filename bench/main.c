/* bench compare          both versions on every workload and on many random inputs: how many, or the first that differs
   bench list             the workloads, a line each: number, units timed, few, many, unit, name
   bench time I A B       nanoseconds for one unit of workload I, by versions A and B, the ratio of B to A, and the ratios below
                          which a twentieth of the turns lies, and all but a twentieth
   bench work I A N       N units of workload I by version A, to count its instructions
   bench space            bytes of a chip over the border and of C's struct, and bytes of stack that a run takes and that a step
                          takes, each by C and by the proved code

   A version is C (plain C), I (plain C inside, without the border) or R (the proved code). */
#include <stdio.h>
#include <stdlib.h>
#include <string.h>
#include <time.h>
#include "chip.h"
#include "inputs.h"
#include "stack.h"
#include "work.h"

/* ---- the same answers */

static struct digest digest_of(const struct workload *w, const struct version *by, size_t units)
{
    digesting = true;
    digest = (struct digest){0};
    w->work(by, units);
    digesting = false;
    return digest;
}

/* The same numbers for each workload, whichever came before it. */
static void prepare(const struct workload *w)
{
    begin_again();
    w->prepare();
}

static int compare_workloads(void)
{
    for (size_t i = 0; i < workload_count; i++) {
        const struct workload *w = &workloads[i];
        prepare(w);
        struct digest by_c = digest_of(w, &plain, w->timed), by_rattle = digest_of(w, &proved, w->timed);
        if (by_c.answers != by_rattle.answers || by_c.numbers != by_rattle.numbers) {
            printf("%s differs\n", w->name);
            return 1;
        }
    }
    printf("%zu workloads, the same answers, samples and chips\n", workload_count);
    return 0;
}

static const struct workload *named(const char *name)
{
    for (size_t i = 0; i < workload_count; i++)
        if (!strcmp(workloads[i].name, name))
            return &workloads[i];
    abort();
}

/* Workloads that speak the same frames, and so must give the same samples. */
static int compare_named(const char *const *names, int count, size_t samples)
{
    uint64_t first = 0;
    for (int i = 0; i < count; i++) {
        const struct workload *w = named(names[i]);
        prepare(w);
        uint64_t found = digest_of(w, &proved, samples).answers;
        if (i == 0)
            first = found;
        if (found != first) {
            printf("%s differs from %s\n", names[i], names[0]);
            return 1;
        }
    }
    return 0;
}

/* Rate 0 is that of a TMS5220, many calls are one run, and bytes turned round that leave the FIFO turned round are the bytes. */
static int compare_alike(void)
{
    static const char *const rates[] = {"run, mixed", "run, mixed, 5220C", "run, mixed, rate bits"};
    static const char *const calls[] = {"run, mixed", "run of 100, mixed", "step by step, mixed"};
    static const char *const orders[] = {"external speech, most first", "external speech, least first"};
    if (compare_named(rates, 3, 10000000) || compare_named(calls, 3, 2000000) || compare_named(orders, 2, 2000000))
        return 1;
    printf("3 runs at rate 0, the same samples; by 3 kinds of calls, the same samples; "
           "external speech in 2 bit orders, the same samples\n");
    return 0;
}

enum { MOST = 4000, MOST_STEPS = MOST / 4 };

/* all that a step hands back */
struct told {
    int16_t sample;
    uint8_t report;
    tms_frame frame;
    tms_bits bits;
};

/* what a host has after speech: the refusal, the samples, the numbers, and the byte read then */
struct spoken {
    uint8_t refusal, read_refusal, byte;
    int16_t out[MOST];
    tms_chip chip;
};

struct answer {
    uint8_t walk_refusal[2], check_refusal, spoilt_step, spoilt_write;
    tms_phrase phrase[2];
    struct spoken once, rated, by_steps, in_order[2], spoilt;
    struct told told[MOST_STEPS], told_spoilt;
};

struct input {
    uint8_t image[1000], voice[640], bytes[1000], v, rr;
    size_t image_length, voice_length, bytes_length, address, length;
    /* a number of a chip, and what is put there */
    int place;
    int32_t number;
};

/* Makes a voice file wrong, or nearly so, in one place. */
static void spoil_voice(struct input *in)
{
    static const int words[] = {-513, -512, 0, 1, 511, 512, 1023, 1024};
    int at = 3 + 2 * between(0, 246), word = words[between(0, 7)];
    switch (between(0, 4)) {
    case 0:
        in->voice_length += between(-70, 70);
        break;
    case 1:
        in->voice[between(0, 1)] ^= 1 << between(0, 7);
        break;
    case 2:
        in->voice[2] = between(0, 2);
        break;
    case 3:
        in->voice[at] = word >> 8 & 255;
        in->voice[at + 1] = word & 255;
        break;
    default:
        in->voice[497] = between(0, 70);
    }
}

/* A number up to the most, at times the next one or 255. */
static uint8_t mostly_up_to(int most)
{
    if (between(0, 9))
        return between(0, most);
    return between(0, 1) ? most + 1 : 255;
}

/* One of the ends of the ranges of a chip's numbers, or the next to one. */
static int32_t any_number(void)
{
    static const int32_t ends[] = {INT32_MIN, -8192, -512, 0, 1, 2, 3, 4, 7, 8, 16, 24, 255, 511, 1022, 1023, 8191, 2097152,
                                   INT32_MAX - 1};
    return ends[between(0, sizeof ends / sizeof *ends - 1)] + between(0, 1);
}

static void make_frames(uint8_t *bytes, size_t length, enum rate_bits rate)
{
    static struct image frames;
    static const struct mix mixes[] = {{10, 25, 25, NO_RATE}, {40, 20, 20, NO_RATE}, {0, 50, 30, NO_RATE}};
    struct mix mix = mixes[between(0, 2)];
    mix.rate = rate;
    make_image(&frames, length, mix, between(1, 40));
    memcpy(bytes, frames.bytes, length);
}

/* Mostly valid: frames, with rate bits or without, or any bytes, an address at times past the end or past every image, a voice
   file at times spoilt, a frame rate at times out of range. The number that is put into a chip mostly spoils it. */
static void make_input(struct input *in)
{
    static const enum rate_bits rates[] = {NO_RATE, RATE_ZERO, ANY_RATE};
    make_frames(in->image, sizeof in->image, rates[between(0, 2)]);
    make_frames(in->bytes, sizeof in->bytes, NO_RATE);
    if (between(0, 3) == 0)
        for (size_t i = 0; i < sizeof in->image; i++)
            in->image[i] = between(0, 255);
    if (between(0, 3) == 0)
        for (size_t i = 0; i < sizeof in->bytes; i++)
            in->bytes[i] = between(0, 255);
    in->image_length = between(0, 20) ? between(1, sizeof in->image) : 0;
    in->bytes_length = between(0, sizeof in->bytes);
    in->voice_length = make_voice(in->voice);
    if (between(0, 3) == 0)
        spoil_voice(in);
    in->address = between(0, in->image_length + 1) + (between(0, 9) ? 0 : 262144);
    in->length = between(0, MOST);
    in->v = mostly_up_to(1);
    in->rr = mostly_up_to(3);
    in->place = between(0, TMS_CHIP - 1);
    in->number = any_number();
}

static void finish(struct host *h, struct spoken *s, uint8_t refusal)
{
    s->refusal = refusal;
    s->read_refusal = h->by->read(&h->chip, &s->byte);
    s->chip = h->chip;
}

static uint8_t step_telling(struct host *h, struct told *t)
{
    return h->by->step(&h->chip, h->image, h->image_length, h->voice, h->voice_length, &t->sample, &t->report, &t->frame,
                       &t->bits);
}

static uint8_t steps_telling(struct host *h, struct told *told, size_t count)
{
    uint8_t refusal = TMS_TAKEN;
    for (size_t i = 0; !refusal && i < count; i++)
        refusal = step_telling(h, &told[i]);
    return refusal;
}

/* A chip that speaks, with another number in one place: each call takes it, or refuses it and leaves it so. */
static void spoil_chip(struct host *h, const struct input *in, struct answer *a)
{
    speak_rated(h, in->address, in->v & 1, in->rr & 3);
    play(h, a->spoilt.out, in->length / 4);
    h->chip.n[in->place] = in->number;
    a->spoilt_step = step_telling(h, &a->told_spoilt);
    a->spoilt_write = h->by->write(&h->chip, h->image, h->image_length, in->bytes[0]);
    finish(h, &a->spoilt, play(h, a->spoilt.out, in->length / 4));
}

static void speech_by(struct host *h, const struct input *in, struct answer *a)
{
    uint8_t refusal = speak(h, in->address);
    finish(h, &a->once, refusal ? refusal : play(h, a->once.out, in->length));
    refusal = speak(h, in->address);
    finish(h, &a->by_steps, refusal ? refusal : steps_telling(h, a->told, in->length / 4));
    refusal = speak_rated(h, in->address, in->v & 1, in->rr & 3);
    finish(h, &a->rated, refusal ? refusal : play(h, a->rated.out, in->length));
    for (int order = TMS_LEAST_FIRST; order <= TMS_MOST_FIRST; order++) {
        refusal = speak_external(h, order, in->bytes, in->bytes_length, a->in_order[order].out, in->length);
        finish(h, &a->in_order[order], refusal);
    }
}

/* The answer is filled before, with what no call gives, so that what a call should write and does not is seen. */
static void answer_by(const struct version *by, const struct input *in, struct answer *a)
{
    struct host h = {.by = by, .image = in->image, .image_length = in->image_length, .voice = in->voice,
                     .voice_length = in->voice_length};
    memset(a, 0xa5, sizeof *a);
    a->walk_refusal[0] = by->walk(in->image, in->image_length, in->address, &a->phrase[0]);
    a->walk_refusal[1] = by->walk_5220c(in->image, in->image_length, in->address, in->v, in->rr, &a->phrase[1]);
    a->check_refusal = by->voice_check(in->voice, in->voice_length);
    speech_by(&h, in, a);
    spoil_chip(&h, in, a);
}

static int compare_random(int rounds)
{
    static struct input in;
    static struct answer by_c, by_rattle;
    int taken = 0, taken_rated = 0, refused = 0;
    for (int r = 0; r < rounds; r++) {
        make_input(&in);
        answer_by(&plain, &in, &by_c);
        answer_by(&proved, &in, &by_rattle);
        if (memcmp(&by_c, &by_rattle, sizeof by_c)) {
            printf("random input %d differs\n", r);
            return 1;
        }
        taken += by_c.once.refusal == TMS_TAKEN;
        taken_rated += by_c.rated.refusal == TMS_TAKEN;
        refused += by_c.spoilt.refusal == TMS_STATE;
    }
    printf("%d random inputs, %d of them spoken, %d by a 5220C, %d chips refused, the same answers, samples and chips\n", rounds,
           taken, taken_rated, refused);
    return 0;
}

/* ---- time: the processor's. Both versions take a short turn, one right after the other, so that a change of the processor's
   speed touches both; a ratio is of two such turns. */

enum { TURNS = 201, TURNS_IN_ALL = 20 };

static double seconds(const struct workload *w, const struct version *by)
{
    struct timespec from, to;
    clock_gettime(CLOCK_PROCESS_CPUTIME_ID, &from);
    w->work(by, w->timed / TURNS_IN_ALL);
    clock_gettime(CLOCK_PROCESS_CPUTIME_ID, &to);
    return (to.tv_sec - from.tv_sec) + 1e-9 * (to.tv_nsec - from.tv_nsec);
}

static int compare_numbers(const void *a, const void *b)
{
    double x = *(const double *)a, y = *(const double *)b;
    return (x > y) - (x < y);
}

/* the number below which a part of the sorted turns lies */
static double quantile(const double *sorted, double part)
{
    return sorted[(int)(part * (TURNS - 1))];
}

static void time_both(const struct workload *w, const struct version *a, const struct version *b)
{
    static double by_a[TURNS], by_b[TURNS], ratio[TURNS];
    double unit = 1e9 / (w->timed / TURNS_IN_ALL);
    prepare(w);
    for (int i = 0; i < TURNS; i++) {
        by_a[i] = unit * seconds(w, a);
        by_b[i] = unit * seconds(w, b);
        ratio[i] = by_b[i] / by_a[i];
    }
    qsort(by_a, TURNS, sizeof *by_a, compare_numbers);
    qsort(by_b, TURNS, sizeof *by_b, compare_numbers);
    qsort(ratio, TURNS, sizeof *ratio, compare_numbers);
    printf("%.3f %.3f %.3f %.3f %.3f\n", quantile(by_a, 0.5), quantile(by_b, 0.5), quantile(ratio, 0.5), quantile(ratio, 0.05),
           quantile(ratio, 0.95));
}

/* ---- stack */

enum { STACK_SAMPLES = 1000 };
static struct host measured;
static int16_t measured_out[STACK_SAMPLES];

static void run_measured(void)
{
    play(&measured, measured_out, STACK_SAMPLES);
}

static void step_measured(void)
{
    play_by_steps(&measured, measured_out, STACK_SAMPLES);
}

static size_t stack_of(void (*call)(void), const struct version *by)
{
    measured = new_host(by);
    speak(&measured, 0);
    return stack_use(call);
}

static const struct version *version_named(char letter)
{
    return letter == 'C' ? &plain : letter == 'I' ? &inside : &proved;
}

int main(int argc, char **argv)
{
    const char *what = argc > 1 ? argv[1] : "";
    if (!strcmp(what, "compare"))
        return compare_workloads() || compare_alike() || compare_random(3000);
    if (!strcmp(what, "list")) {
        for (size_t i = 0; i < workload_count; i++) {
            const struct workload *w = &workloads[i];
            printf("%zu %zu %zu %zu %s %s\n", i, w->timed, w->few, w->many, w->unit, w->name);
        }
        return 0;
    }
    if (!strcmp(what, "space")) {
        prepare(named("run, mixed"));
        printf("%zu %zu %zu %zu %zu %zu\n", sizeof(tms_chip), sizeof(struct chip), stack_of(run_measured, &plain),
               stack_of(run_measured, &proved), stack_of(step_measured, &plain), stack_of(step_measured, &proved));
        return 0;
    }
    size_t i = argc > 2 ? (size_t)atoi(argv[2]) : workload_count;
    if (i >= workload_count)
        return 2;
    if (!strcmp(what, "time") && argc == 5) {
        time_both(&workloads[i], version_named(*argv[3]), version_named(*argv[4]));
        return 0;
    }
    if (!strcmp(what, "work") && argc == 5) {
        prepare(&workloads[i]);
        workloads[i].work(version_named(*argv[3]), atol(argv[4]));
        return 0;
    }
    return 2;
}
