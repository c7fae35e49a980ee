/* Finds names, or widths of integer types, that collide in the library's hash with its fixed seed.
 *
 *   collide KEYS COUNT        KEYS: characters, bytes or widths; one key a line
 *
 *   characters   names as the lexer's table hashes them: their length, and three characters of 21 bits to a word
 *   bytes        names as a table of strings hashes them: their bytes, and 0xff behind these
 *   widths       widths of signless integer types, as the table of types hashes them: two cases, and the width
 *
 * The hash is folded to 32 bits. Its low bits choose the place in a table where a search begins, and its high byte is
 * compared before keys are. So keys that agree in the low bits and in a part of the high byte make a search long. */
#include <stdint.h>
#include <stdio.h>
#include <stdlib.h>
#include <string.h>

#define MULTIPLIER 0x9e3779b97f4a7c15ull
#define SEED 0x243f6a8885a308d3ull

static const char letters[] = "abcdefghijklmnopqrstuvwxyzABCDEFGHIJKLMNOPQRSTUVWXYZ_0123456789";
enum { LETTERS = sizeof letters - 1 };

/* A write of so many bytes, up to 8, which are read as this word. */
static uint64_t write_word(uint64_t state, uint64_t word, unsigned bytes) {
    unsigned __int128 product = (unsigned __int128)(state ^ word) * (MULTIPLIER ^ 2 * bytes);
    return (uint64_t)product ^ (uint64_t)(product >> 64);
}

static int collides(uint64_t state, uint32_t mask) {
    return (((uint32_t)(state ^ state >> 32) ^ 0x5a000000u) & mask) == 0;
}

/* The names that begin with these letters, and end in three more. */
static long find_tails(const char *head, int is_bytes, long count) {
    uint64_t before = 0, state = SEED;
    int length = strlen(head);
    for (int place = 0; place < length; place++) before |= (uint64_t)head[place] << (is_bytes ? 8 : 21) * place;
    if (!is_bytes) state = write_word(write_word(SEED, length + 3, 8), before, 8);
    for (const char *a = letters; *a; a++)
        for (const char *b = letters; *b; b++)
            for (const char *c = letters; *c && count > 0; c++) {
                uint64_t end = is_bytes
                    ? write_word(write_word(state, before | (uint64_t)*a << 40 | (uint64_t)*b << 48 | (uint64_t)*c << 56, 8), 0xffffff, 1)
                    : write_word(state, *a | (uint64_t)*b << 21 | (uint64_t)*c << 42, 8);
                if (!collides(end, 0x0f000fff)) continue;
                printf("%s%c%c%c\n", head, *a, *b, *c);
                count--;
            }
    return count;
}

/* Names begin with small letters, and have six characters, or eight bytes. */
static int find_names(int is_bytes, long count) {
    char head[] = "aaaaa";
    if (!is_bytes) head[3] = 0;
    int place = strlen(head) - 1;
    while (count > 0) {
        count = find_tails(head, is_bytes, count);
        int at = place;
        while (at >= 0 && head[at] == 'z') head[at--] = 'a';
        if (at < 0) return 1;
        head[at]++;
    }
    return 0;
}

static int find_widths(long count) {
    uint64_t state = write_word(write_word(SEED, 0, 8), 0, 8);
    for (uint64_t width = 1; width < 1ull << 32; width++) {
        if (!collides(write_word(state, width | width << 32, 4), 0x07001fff)) continue;
        printf("%llu\n", (unsigned long long)width);
        if (--count == 0) return 0;
    }
    return 1;
}

int main(int words, char **word) {
    if (words != 3) return 2;
    long count = atol(word[2]);
    if (strcmp(word[1], "characters") == 0) return find_names(0, count);
    if (strcmp(word[1], "bytes") == 0) return find_names(1, count);
    if (strcmp(word[1], "widths") == 0) return find_widths(count);
    return 2;
}
