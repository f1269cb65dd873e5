/* The check of a voice file. */
#include "chip.h"

static int word(const uint8_t *at)
{
    return at[0] << 8 | at[1];
}

/* a table of unsigned words: least to 1023, but the first 0 */
static bool unsigned_valid(const uint8_t *table, int n, int least)
{
    if (word(table) != 0)
        return false;
    for (int i = 1; i < n; i++)
        if (word(table + 2 * i) < least || word(table + 2 * i) > 1023)
            return false;
    return true;
}

static bool k_valid(const uint8_t *table, int n)
{
    for (int i = 0; i < n; i++) {
        int k = (int16_t)word(table + 2 * i);
        if (k < -512 || k > 511)
            return false;
    }
    return true;
}

int voice_check(struct bytes voice)
{
    const uint8_t *v = voice.at;
    if (voice.length < 499 || voice.length > 562)
        return VOICE_SIZE;
    if ((size_t)word(v) + 2 != voice.length)
        return VOICE_LENGTH;
    if (v[2] != 1)
        return VOICE_VERSION;
    if (!unsigned_valid(v + 3, 15, 0) || !unsigned_valid(v + 33, 64, 1) || !k_valid(v + 161, 168))
        return VOICE_VALUE;
    if (v[497] == 0 || v[497] > 64 || word(v) != 496 + v[497])
        return VOICE_PULSE;
    return TAKEN;
}
