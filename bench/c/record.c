/* record FILE N T: the record of a disk, from a file that begins with its bytes. N is the number of journal blocks, T the
 * greatest length of a table. The exit status is 0 where the record is held, 1 where it is refused, 2 after a line on
 * standard error. */
#include <errno.h>
#include <inttypes.h>
#include <stdio.h>
#include <stdlib.h>
#include <string.h>

#include "wokujani.h"

enum { SECTOR = 4096, BLOCK = 4096, JOURNAL = 2 * SECTOR };

static int fail(const char *what, const char *why) {
    fprintf(stderr, "record: %s: %s\n", what, why);
    return 2;
}

/* The number that a word says, or 0 where it says none from 1 to most. */
static uint64_t number(const char *word, uint64_t most) {
    uint64_t value = 0;
    for (; *word >= '0' && *word <= '9' && value <= most; word++) value = 10 * value + (uint64_t)(*word - '0');
    return *word == '\0' && value <= most ? value : 0;
}

/* The first bytes of a file into disk: 1, or 0 and a line where it can't be read or has fewer. */
static int read_disk(const char *name, uint8_t *disk, size_t size) {
    FILE *file = fopen(name, "rb");
    if (file == NULL) return fail(name, strerror(errno)), 0;
    size_t got = fread(disk, 1, size, file);
    int error = ferror(file) ? errno : 0;
    fclose(file);
    if (error != 0) return fail(name, strerror(error)), 0;
    if (got < size) fprintf(stderr, "record: %s has %zu bytes, and %zu are needed\n", name, got, size);
    return got == size;
}

/* The numbers of both slots, and the parts of the selected one's interval. */
static void print_slots(uint64_t n, uint64_t t, const uint8_t *disk, uint64_t which) {
    uint64_t five[2][5], first = 0, blocks = 0;
    for (int k = 0; k < 2; k++) {
        uint8_t q = wokujani_read_sector(disk + k * SECTOR, SECTOR, five[k], 5);
        printf("slot %d %d", k + 1, q);
        for (int i = 0; i < 5; i++) printf(" %" PRIu64, five[k][i]);
        putchar('\n');
    }
    printf("selected %" PRIu64 "\n", which + 1);
    wokujani_front(n, t, five[which][1], five[which][2], &first, &blocks);
    if (blocks != 0) printf("front %" PRIu64 " %" PRIu64 "\n", first, blocks);
    wokujani_back(n, t, five[which][1], five[which][2], &first, &blocks);
    if (blocks != 0) printf("back %" PRIu64 " %" PRIu64 "\n", first, blocks);
}

/* Bodies lie back to back, in the order of the lengths. */
static void print_entries(const uint8_t *body, const uint16_t *lens, uint64_t found) {
    for (uint64_t i = 0; i < found; i++) {
        printf("entry %" PRIu64 " %d ", i + 1, lens[i]);
        for (int k = 0; k < lens[i]; k++) printf("%02x", *body++);
        putchar('\n');
    }
}

int main(int argc, char **argv) {
    if (argc != 4) return fail("expected FILE N T", "a disk's bytes, its journal blocks, the greatest table length");
    uint64_t n = number(argv[2], 4096), t = number(argv[3], 16777216);
    if (n == 0) return fail(argv[2], "N is a number from 1 to 4096");
    if (t == 0) return fail(argv[3], "T is a number from 1 to 16777216");

    size_t size = n * BLOCK;
    uint8_t *disk = malloc(JOURNAL + size), *pieces = malloc(size), *rbytes = malloc(size);
    uint16_t *rlens = malloc(size * sizeof *rlens);
    if (disk == NULL || pieces == NULL || rbytes == NULL || rlens == NULL) return fail(argv[1], "no memory");
    if (!read_disk(argv[1], disk, JOURNAL + size)) return 2;

    uint64_t which = 0, found = 0, bytes = 0, slot = 0;
    uint8_t q = wokujani_record(n, t, disk, JOURNAL + size, pieces, size, rbytes, size, rlens, size, &which, &found,
                                &bytes, &slot);
    if (q != 0) {
        printf("refused %d %d\n", q, (int)slot);
    } else {
        print_slots(n, t, disk, which);
        print_entries(rbytes, rlens, found);
        printf("record %" PRIu64 " %" PRIu64 "\n", found, bytes);
    }
    free(disk), free(pieces), free(rbytes), free(rlens);
    if (fflush(stdout) != 0 || ferror(stdout)) return fail("the rows can't be written", strerror(errno));
    return q != 0;
}
