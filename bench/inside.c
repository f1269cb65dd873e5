/* Plain C without the border: the chip stays in a struct between calls, and the numbers that a host holds are passed over. */
#include "border.h"
#include "chip.h"

static struct chip held;

static uint8_t power_up_held(tms_chip *chip, uint8_t device, uint8_t bit_order)
{
    (void)chip;
    if (device == TMS_5220C)
        power_up_5220c(&held, bit_order);
    else
        power_up(&held, bit_order);
    return TAKEN;
}

static uint8_t write_held(tms_chip *chip, const uint8_t *image, size_t image_length, uint8_t byte)
{
    (void)chip;
    return chip_write(&held, (struct bytes){image, image_length}, byte);
}

static uint8_t read_held(tms_chip *chip, uint8_t *byte)
{
    (void)chip;
    return chip_read(&held, byte);
}

/* What the step tells besides the sample stays in the struct too. */
static uint8_t step_held(tms_chip *chip, const uint8_t *image, size_t image_length, const uint8_t *voice, size_t voice_length,
                         int16_t *sample, uint8_t *report, tms_frame *frame, tms_bits *bits)
{
    static struct step step;
    (void)chip, (void)report, (void)frame, (void)bits;
    int refusal = chip_step(&held, (struct bytes){image, image_length}, (struct bytes){voice, voice_length}, &step);
    *sample = step.sample;
    return refusal;
}

static uint8_t run_held(tms_chip *chip, const uint8_t *image, size_t image_length, const uint8_t *voice, size_t voice_length,
                        int16_t *out, size_t out_length)
{
    (void)chip;
    return chip_run(&held, (struct bytes){image, image_length}, (struct bytes){voice, voice_length}, out, out_length);
}

const struct version inside = {power_up_held, write_held, read_held, step_held, run_held, c_walk, c_walk_5220c, c_voice_check};
