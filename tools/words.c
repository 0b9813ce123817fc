/*
 * The words of xoshiro256++ for tools/fuzz, which compiles this file when it starts and has it take the place of
 * `Xoshiro.words` of reference/text.py.
 */
#include <stddef.h>
#include <stdint.h>

static uint64_t rotated(uint64_t word, int count)
{
    return word << count | word >> (64 - count);
}

/* The next words after a state, which becomes the state after them. */
void next_words(uint64_t state[4], uint64_t *words, size_t count)
{
    uint64_t a = state[0], b = state[1], c = state[2], d = state[3];
    for (size_t i = 0; i < count; i++) {
        words[i] = rotated(a + d, 23) + a;
        uint64_t shifted = b << 17;
        c ^= a;
        d ^= b;
        b ^= c;
        a ^= d;
        c ^= shifted;
        d = rotated(d, 45);
    }
    state[0] = a;
    state[1] = b;
    state[2] = c;
    state[3] = d;
}
