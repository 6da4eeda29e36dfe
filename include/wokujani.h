/* The journal store's functions for C and whatever reads C headers. `tools/build linked` proves them and writes
 * target/staticlib/liblinked.a; docs/LINKING.md says what each does and has an example.
 *
 * Each answers 0, or the number of the question that was answered no; then nothing that was lent is altered, but for
 * what a record says below. None asks anything of its caller but that a pointer points to as many elements as the
 * length behind it says, and that memory which is written lies apart from all else that is lent. A further answer goes
 * through a pointer to one number. wokujani_select refuses nothing, and answers a slot. */
#ifndef WOKUJANI_H
#define WOKUJANI_H

#include <stdbool.h>
#include <stddef.h>
#include <stdint.h>

#ifdef __cplusplus
extern "C" {
#endif

/* Pending entries as one range: the first n of bytes and lens. */
uint8_t wokujani_range_blocks(const uint8_t *bytes, size_t bytes_len, const uint16_t *lens, size_t lens_len,
                              uint64_t n, uint64_t *taken);
uint8_t wokujani_write_range(const uint8_t *bytes, size_t bytes_len, const uint16_t *lens, size_t lens_len,
                             uint64_t n, uint8_t *journal, size_t journal_len, uint64_t start, uint64_t *taken);

/* One range and its entries. */
uint8_t wokujani_count_entries(const uint8_t *s, size_t s_len, uint64_t *found);
uint8_t wokujani_list_entries(const uint8_t *s, size_t s_len, uint64_t *starts, size_t starts_len, uint64_t *found);
uint8_t wokujani_copy_entry(const uint8_t *s, size_t s_len, uint64_t i, uint8_t *out, size_t out_len);

/* Ranges one after another, as an interval of the journal has them. */
uint8_t wokujani_scan(const uint8_t *s, size_t s_len, uint64_t *found, uint64_t *size);
uint8_t wokujani_unpack(const uint8_t *s, size_t s_len, uint8_t *bytes, size_t bytes_len, uint16_t *lens,
                        size_t lens_len, uint64_t *found, uint64_t *size);

/* A superblock as a sector of 4,096 bytes. The five numbers are counter, journal start, journal length, table address
 * and table length. */
uint8_t wokujani_write_sector(uint64_t counter, uint64_t start, uint64_t len, uint64_t address, uint64_t length,
                              uint8_t *sector, size_t sector_len);
uint8_t wokujani_read_sector(const uint8_t *sector, size_t sector_len, uint64_t *numbers, size_t numbers_len);

/* The record of a disk: what a load of it comes to. disk is the two sectors and then the N blocks of the journal, 8,192
 * and N * 4,096 bytes; pieces and rbytes have N * 4,096 bytes, and rlens as many lengths. The entries' bodies come to the
 * front of rbytes back to back, their lengths to the front of rlens. *which is the selected slot, 0 the first and 1 the
 * second, *found how many entries there are, *size how many bytes they have; after a refusal the three are as they were.
 * *slot is always written: 1 or 2 where that slot was refused, else 0. Where the interval goes round the ring's end its
 * blocks lie in pieces, in order, and so they do after a 7. With marks, one a block, a 6 says that a block of the interval
 * can't be read. */
uint8_t wokujani_record(uint64_t n, uint64_t t, const uint8_t *disk, size_t disk_len, uint8_t *pieces,
                        size_t pieces_len, uint8_t *rbytes, size_t rbytes_len, uint16_t *rlens, size_t rlens_len,
                        uint64_t *which, uint64_t *found, uint64_t *size, uint64_t *slot);
uint8_t wokujani_record_marked(uint64_t n, uint64_t t, const uint8_t *disk, size_t disk_len, const uint8_t *marks,
                               size_t marks_len, uint8_t *pieces, size_t pieces_len, uint8_t *rbytes,
                               size_t rbytes_len, uint16_t *rlens, size_t rlens_len, uint64_t *which,
                               uint64_t *found, uint64_t *size, uint64_t *slot);

/* Is a superblock one that a store of N and T may have, by the five numbers of wokujani_read_sector? And the slot that a
 * store loads from, by the counters of both: 0 the first, 1 the second. */
uint8_t wokujani_ask_superblock(uint64_t n, uint64_t t, const uint64_t *numbers, size_t numbers_len);
uint64_t wokujani_select(uint64_t counter1, uint64_t counter2);

/* The two parts of an interval of the ring, up to its end and from block 0 on: the first block and how many there are,
 * both 0 where there is no such part. */
uint8_t wokujani_front(uint64_t n, uint64_t t, uint64_t start, uint64_t len, uint64_t *first, uint64_t *blocks);
uint8_t wokujani_back(uint64_t n, uint64_t t, uint64_t start, uint64_t len, uint64_t *first, uint64_t *blocks);

/* Questions 1 and 2's looks at lent memory. */
uint8_t wokujani_ask_journal(uint64_t n, uint64_t t, const uint8_t *journal, size_t journal_len,
                             const uint8_t *marks, size_t marks_len);
uint8_t wokujani_count_pending(const uint8_t *bytes, size_t bytes_len, const uint16_t *lens, size_t lens_len,
                               uint64_t n, uint64_t frozen, uint64_t *first, uint64_t *size);
uint8_t wokujani_count_left(uint64_t blocks, const uint8_t *rbytes, size_t rbytes_len, const uint16_t *rlens,
                            size_t rlens_len, uint64_t n, uint64_t entries, uint64_t bytes, uint64_t *found,
                            uint64_t *size);

/* Whole steps of a machine at work, whose 16 numbers the caller keeps in state. */
uint8_t wokujani_add(uint64_t *state, size_t state_len, const uint8_t *brought, size_t brought_len,
                     const uint16_t *sizes, size_t sizes_len, uint64_t k, uint8_t *bytes, size_t bytes_len,
                     uint16_t *lens, size_t lens_len, const uint8_t *pieces, size_t pieces_len,
                     const uint8_t *rbytes, size_t rbytes_len, const uint16_t *rlens, size_t rlens_len);
uint8_t wokujani_write_journal(uint64_t *state, size_t state_len, uint64_t id1, bool two, uint64_t id2,
                               uint8_t *out, size_t out_len, uint8_t *bytes, size_t bytes_len, uint16_t *lens,
                               size_t lens_len, const uint8_t *pieces, size_t pieces_len, const uint8_t *rbytes,
                               size_t rbytes_len, const uint16_t *rlens, size_t rlens_len);
uint8_t wokujani_replay(uint64_t *state, size_t state_len, const uint8_t *brought, size_t brought_len,
                        const uint16_t *sizes, size_t sizes_len, uint64_t k, const uint8_t *bytes,
                        size_t bytes_len, const uint16_t *lens, size_t lens_len, const uint8_t *pieces,
                        size_t pieces_len, const uint8_t *rbytes, size_t rbytes_len, const uint16_t *rlens,
                        size_t rlens_len);

#ifdef __cplusplus
}
#endif

#endif
