/* What the bench works on: numbers that look random and are the same in every run, voice files, and images of frames. */
#include <stddef.h>
#include <stdint.h>

enum { IMAGE_LIMIT = 262144, FRAME_LIMIT = 2 * IMAGE_LIMIT };

struct image {
    uint8_t bytes[IMAGE_LIMIT];
    size_t length;
    /* how many frames it has, and the first bit of each one's energy */
    size_t count, first[FRAME_LIMIT + 1];
};

int between(int low, int high);
/* from here on the same numbers come as at first */
void begin_again(void);
size_t make_voice(uint8_t *voice);
void make_loud(uint8_t *voice);

/* the rate bits before a frame: none, 00, or any two. Only the last take numbers, so that with the others the same frames come */
enum rate_bits { NO_RATE, RATE_ZERO, ANY_RATE };

/* how often each kind comes, out of 100: silence, repeat, unvoiced; else voiced */
struct mix {
    int silence, repeat, unvoiced;
    enum rate_bits rate;
};

extern const struct mix all_silence, all_voiced, all_unvoiced, speech, speech_rate_zero, speech_any_rate;

/* as many frames as fit the length, with a stop after each so many (0: none) and one at the end */
void make_image(struct image *image, size_t length, struct mix mix, size_t stop_after);
/* puts a stop in the place of a frame, and gives the four bits that were there, for putting them back */
unsigned put_energy(struct image *image, size_t frame, unsigned energy);
