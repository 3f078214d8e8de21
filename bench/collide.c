/* Names or numbers that meet in a table, for collide.py.

   collide names|numbers COUNT BITS fixed
   collide names|numbers COUNT BITS POINT FACTOR OFFSET

   Prints COUNT of them with one tag and the same BITS low bits of the hash that a table keeps: by the kit's hasher of a fixed seed, or
   by the keyed one with this key. A name has eight letters. A number is hashed as the constant of a switch's case. */
#include <stdint.h>
#include <stdio.h>
#include <stdlib.h>
#include <string.h>

typedef unsigned __int128 u128;

enum { ARGUMENTS_OF_FIXED = 5, ARGUMENTS_OF_KEYED = 7, LETTERS = 8 };
static const uint64_t multiplier = 0x9e3779b97f4a7c15u;
static const uint64_t low_bits = ((uint64_t)1 << 61) - 1;
static const uint32_t tag = 0x5a;

/* What is hashed so far, by the fixed hasher or the keyed one. */
typedef struct {
    int keyed;
    uint64_t state, point, factor, offset;
} hasher;

static uint64_t folded_multiply(uint64_t a, uint64_t b) {
    u128 product = (u128)a * b;
    return (uint64_t)product ^ (uint64_t)(product >> 64);
}

static uint64_t folded(u128 wide) {
    return ((uint64_t)wide & low_bits) + (uint64_t)(wide >> 61);
}

static void step(hasher *h, uint64_t coefficient) {
    h->state = folded((u128)h->state * h->point) + coefficient;
}

static void write_byte(hasher *h, uint8_t byte) {
    if (h->keyed)
        step(h, byte);
    else
        h->state = folded_multiply(h->state ^ (byte | (uint64_t)byte << 8 | (uint64_t)byte << 16), multiplier ^ 2);
}

static void write_word(hasher *h, uint64_t word) {
    if (h->keyed) {
        step(h, (uint32_t)word);
        step(h, word >> 32);
    } else
        h->state = folded_multiply(h->state ^ word, multiplier ^ 16);
}

/* The 32 bits that a table keeps. */
static uint32_t kept(const hasher *h) {
    uint64_t hash = h->state;
    if (h->keyed)
        hash = folded(folded((u128)h->state * h->factor) + h->offset);
    return (uint32_t)(hash ^ hash >> 32);
}

/* What is looked for, and how many of them are still to be printed. */
static uint32_t mask, goal;
static unsigned wanted;

static int is_wanted(const hasher *h) {
    if ((kept(h) & mask) != goal)
        return 0;
    wanted--;
    return 1;
}

/* Prints the names that begin so, where they are wanted. */
static void find_names(const hasher *h, char *name, int at) {
    static const char letters[] = "abcdefghijklmnopqrstuvwxyz012345";
    if (at == LETTERS) {
        if (is_wanted(h))
            puts(name);
        return;
    }
    for (int letter = 0; wanted && letters[letter] && (at || letter < 26); letter++) {
        hasher longer = *h;
        name[at] = letters[letter];
        write_byte(&longer, name[at]);
        find_names(&longer, name, at + 1);
    }
}

static void find_numbers(const hasher *h) {
    for (uint64_t number = 1; wanted; number++) {
        hasher longer = *h;
        write_word(&longer, number);
        if (is_wanted(&longer))
            printf("%llu\n", (unsigned long long)number);
    }
}

int main(int count, char **words) {
    if (count != ARGUMENTS_OF_FIXED && count != ARGUMENTS_OF_KEYED)
        return 2;
    char name[LETTERS + 1] = {0};
    int names = !strcmp(words[1], "names");
    wanted = atoi(words[2]);
    mask = ((1u << atoi(words[3])) - 1) | 0xff000000u;
    goal = (tag << 24 | 3) & mask;
    hasher start = {0, 0x243f6a8885a308d3u, 0, 0, 0};
    if (count == ARGUMENTS_OF_KEYED)
        start = (hasher){1, 1, strtoull(words[4], 0, 10), strtoull(words[5], 0, 10), strtoull(words[6], 0, 10)};
    write_word(&start, names ? LETTERS : 0);
    if (names)
        find_names(&start, name, 0);
    else
        find_numbers(&start);
    return 0;
}
