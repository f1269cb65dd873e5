/* The TMS5220 by document 01's rules and the TMS5220C by document 02's, in plain C: what the proved library is compared with. */
#include <stdbool.h>
#include <stddef.h>
#include <stdint.h>

enum refusal {
    TAKEN, WAIT, BEYOND, IMAGE, STATE, VOICE_SIZE, VOICE_LENGTH, VOICE_VERSION, VOICE_VALUE, VOICE_PULSE, NO_PHRASE
};

/* a lent slice */
struct bytes {
    const uint8_t *at;
    size_t length;
};

/* ---- frames and the walk: rom.c */

/* what Load Frame Rate sets; zeros on a TMS5220 */
struct rate {
    uint8_t v, rr;
};

enum kind { SILENCE, STOP, REPEAT, UNVOICED, VOICED };

/* a frame and the rate bits before it, 0 where there are none */
struct frame {
    enum kind kind;
    unsigned rate, energy, pitch, k[10];
};

/* where a cut frame begins, with its rate bits, and how many bits it lacks */
struct shortfall {
    size_t begun, missing;
};

struct walk {
    size_t bits;
    uint32_t frames;
    uint64_t intervals, samples;
    struct shortfall cut;
};

bool image_valid(struct bytes image);
unsigned field(struct bytes s, size_t bit, unsigned width);
bool frame_at(struct bytes s, size_t bit, struct rate rate, struct frame *frame, size_t *next, struct shortfall *cut);
int walk(struct bytes image, size_t address, struct walk *answer);

bool rate_valid(struct rate rate);
unsigned first_interval(struct rate rate, unsigned bits);
int rate_fault(struct bytes image, size_t address, struct rate rate);
int walk_rated(struct bytes image, size_t address, struct rate rate, struct walk *answer);

/* ---- the voice file: voice.c */

int voice_check(struct bytes voice);

/* ---- the chip: chip.c */

struct params {
    int energy, pitch, k[10];
};

/* holds, 0 or 1, is as wide as the rest, so that a sound has no padding and can be compared by its bytes */
struct sound {
    struct params current, target;
    int memory[10];
    unsigned noise, pulse, holds;
};

enum mode { IDLE, ROM, WAITING, EXTERNAL };

/* which bit of a byte leaves the FIFO first */
enum order { LEAST_FIRST, MOST_FIRST };

struct chip {
    enum mode mode;
    bool is_5220c;
    struct rate rate;
    size_t position;
    unsigned nibble;
    uint8_t fifo[16];
    unsigned level, used;
    enum order order;
    bool pending, interrupt, sounding;
    uint8_t byte;
    /* samples for which a branch still keeps the chip busy */
    unsigned busy;
    unsigned sample, interval;
    struct sound sound;
};

enum report { NOTHING, FRAME, STOPPED, RAN_OUT };

struct step {
    int16_t sample;
    enum report report;
    struct frame frame;
    /* ran out: the bits of the FIFO that are used up, and how short the bits are; no place in the FIFO */
    size_t used_up;
    struct shortfall cut;
    /* a stop from the FIFO: the bits that it throws away */
    size_t thrown;
};

void power_up(struct chip *c, enum order order);
void power_up_5220c(struct chip *c, enum order order);
int chip_write(struct chip *c, struct bytes image, uint8_t byte);
int chip_read(struct chip *c, uint8_t *byte);
int chip_step(struct chip *c, struct bytes image, struct bytes voice, struct step *answer);
int chip_run(struct chip *c, struct bytes image, struct bytes voice, int16_t *out, size_t length);
