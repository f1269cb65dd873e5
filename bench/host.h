/* What a host does with a chip, written once over the functions of include/tms5220.h, for every version of them. */
#ifndef HOST_H
#define HOST_H

#include "../include/tms5220.h"

struct version {
    __typeof__(tms_power_up) *power_up;
    __typeof__(tms_write) *write;
    __typeof__(tms_read) *read;
    __typeof__(tms_step) *step;
    __typeof__(tms_run) *run;
    __typeof__(tms_walk) *walk;
    __typeof__(tms_walk_5220c) *walk_5220c;
    __typeof__(tms_voice_check) *voice_check;
};

/* the library; plain C behind the same border; and that C without the border, to see what the border costs */
extern const struct version proved, plain, inside;

/* a chip, and what it speaks with */
struct host {
    const struct version *by;
    const uint8_t *image, *voice;
    size_t image_length, voice_length;
    tms_chip chip;
};

/* Each answers the first refusal, after which nothing more is done. */

/* power-up of a TMS5220, the five loads of an address, Speak */
uint8_t speak(struct host *h, size_t address);
/* the same of a TMS5220C, with Load Frame Rate ahead of the loads */
uint8_t speak_rated(struct host *h, size_t address, uint8_t v, uint8_t rr);

/* one run; a run for each 100 samples, of the whole hundreds; a step for each sample */
uint8_t play(struct host *h, int16_t *out, size_t length);
uint8_t play_in_parts(struct host *h, int16_t *out, size_t length);
uint8_t play_by_steps(struct host *h, int16_t *out, size_t length);

/* power-up, Speak External, and turns of 100 samples, before each of which the FIFO takes as many bytes as it has room for */
uint8_t speak_external(struct host *h, enum tms_bit_order order, const uint8_t *bytes, size_t bytes_length, int16_t *out,
                       size_t length);

#endif
