/* Plays cases on the library's border for sectors: each case from standard input, its answers to standard
 * output. src/tests/border.rs writes the cases and knows the answers. Numbers have 8 bytes, low byte first. */
#include <stddef.h>
#include <stdint.h>
#include <stdio.h>
#include <stdlib.h>
#include <string.h>

#include "wokujani.h"

/* Places before and behind what is lent, which nobody may alter: an odd count of bytes, so that a sector lies
 * at an odd address. */
enum { BYTES = 15, NUMBERS = 2, FIVE = 5 };

static void take(void *bytes, size_t len) {
    if (fread(bytes, 1, len, stdin) != len) {
        fputs("sectors.c: a case is cut off\n", stderr);
        exit(2);
    }
}

static uint64_t take_number(void) {
    uint8_t bytes[8];
    uint64_t number = 0;
    take(bytes, sizeof bytes);
    for (int k = 7; k >= 0; k--) number = number << 8 | bytes[k];
    return number;
}

static void give_number(uint64_t number) {
    for (int k = 0; k < 8; k++) putchar((int)(number >> 8 * k & 255));
}

/* Lent memory, all of it the pattern. */
static void *lend(size_t len, int pattern) {
    void *memory = malloc(len);
    if (memory == NULL) exit(2);
    return memset(memory, pattern, len);
}

static void write_case(int pattern) {
    uint64_t five[FIVE];
    for (int k = 0; k < FIVE; k++) five[k] = take_number();
    size_t len = take_number();
    uint8_t *memory = lend(len + 2 * BYTES, pattern);
    putchar(wokujani_write_sector(five[0], five[1], five[2], five[3], five[4], memory + BYTES, len));
    fwrite(memory, 1, len + 2 * BYTES, stdout);
    fflush(stdout);
    free(memory);
}

static void read_case(int pattern) {
    size_t count = take_number(), len = take_number();
    uint64_t *numbers = lend((count + 2 * NUMBERS) * sizeof *numbers, pattern);
    uint8_t *sector = lend(len + BYTES, pattern), *copy = lend(len + BYTES, pattern);
    take(sector + BYTES, len);
    memcpy(copy, sector, len + BYTES);
    putchar(wokujani_read_sector(sector + BYTES, len, numbers + NUMBERS, count));
    for (size_t k = 0; k < count + 2 * NUMBERS; k++) give_number(numbers[k]);
    putchar(memcmp(copy, sector, len + BYTES) == 0);
    fflush(stdout);
    free(numbers), free(sector), free(copy);
}

/* A case: its pattern's byte, what is written, what is read. Answers go out at once: where a call never comes
 * back, it is the first without an answer. */
int main(void) {
    for (int pattern; (pattern = getchar()) != EOF;) {
        write_case(pattern);
        read_case(pattern);
    }
    return 0;
}
