/* Writes names of eight letters whose hashes agree in their low 14 bits, in the hash maps of the toolchain's library (its FoldHasher, whose
   seed is always the same): bench/reading defines them as macros.
   usage: colliding COUNT */
#include <stdint.h>
#include <stdio.h>
#include <stdlib.h>

enum { LENGTH = 8, BITS = 14 };

static const uint64_t multiplier = 0x9e3779b97f4a7c15u;
static char name[LENGTH + 1];
static long left;

static uint64_t folded(uint64_t a, uint64_t b)
{
    unsigned __int128 product = (unsigned __int128)a * b;
    return (uint64_t)product ^ (uint64_t)(product >> 64);
}

/* Tries each name that begins with the first letters, whose hash so far is given. */
static void try_from(int at, uint64_t state)
{
    int letter;

    if (at == LENGTH) {
        if (((state ^ (state >> 32)) & ((1u << BITS) - 1)) == 0) {
            puts(name);
            --left;
        }
        return;
    }
    for (letter = 'a'; letter <= 'z' && left > 0; ++letter) {
        name[at] = (char)letter;
        try_from(at + 1, folded(state ^ (uint64_t)letter * 0x10101u, multiplier ^ 2));
    }
}

int main(int count, char **words)
{
    left = count == 2 ? atol(words[1]) : 0;
    try_from(0, folded(0x243f6a8885a308d3u ^ LENGTH, multiplier ^ (2 * LENGTH)));
    return left > 0;
}
