/* A log laid out for the archive, and read back. Two of three controllers quarrel about slot 0, which stays empty; then the
 * conductor closes three slots, the first with an urgent order. Writes a log's byte planes, the entries that are read back, and
 * what the library says if a byte is lost. If a file is named, the stored bytes are written there; tools/archive.py shows them.
 *
 *     gcc -std=c99 -Wall -Wextra -pedantic -I include examples/c/archive.c FOLDER/librushhopper.a -o archive && ./archive FILE
 */
#include <inttypes.h>
#include <stdio.h>

#include "rushhopper.h"

#define SLOTS 4

/* 3 replicas; a phase limit of 0 stands for 16. */
RUSHHOPPER_DEFINE_MEMORIES(rack, 3, SLOTS, 0, SLOTS);

static const struct rushhopper_replica zero = {0}, one = {1}, two = {2};

/* A tag is its time times 2^32 plus the order's number: two orders of nine o'clock, one for a class at a quarter past ten. */
static const uint64_t first = ((uint64_t)900 << 32) + 1, second = ((uint64_t)900 << 32) + 2;
static const uint64_t urgent = RUSHHOPPER_URGENT + ((uint64_t)1015 << 32) + 3;

static int open_run(void)
{
    const struct rushhopper_numbers plan = {3, 1, SLOTS, 0, SLOTS};

    return rushhopper_open_in(&rack, plan, 0) == RUSHHOPPER_ACCEPTED;
}

/* Controllers 0 and 1 hear each other in slot 0, and advance. */
static int meet(enum rushhopper_sort sort, size_t phase)
{
    const struct rushhopper_message of_zero = {sort, {0}, {phase}, zero}, of_one = {sort, {0}, {phase}, one};

    return rushhopper_hear_in(&rack, zero, of_one) == RUSHHOPPER_ACCEPTED
        && rushhopper_hear_in(&rack, one, of_zero) == RUSHHOPPER_ACCEPTED
        && rushhopper_advance_in(&rack, zero) == RUSHHOPPER_ACCEPTED
        && rushhopper_advance_in(&rack, one) == RUSHHOPPER_ACCEPTED;
}

/* Each proposes its own order, neither has a majority, and they close slot 0 as empty. Controller 2 hears of it. */
static int quarrel(void)
{
    const struct rushhopper_message notice = {RUSHHOPPER_SORT_NOTICE, {0}, {0}, zero};

    return rushhopper_submit_in(&rack, zero, first) == RUSHHOPPER_ACCEPTED
        && rushhopper_submit_in(&rack, one, second) == RUSHHOPPER_ACCEPTED
        && rushhopper_begin_in(&rack, zero) == RUSHHOPPER_ACCEPTED
        && rushhopper_begin_in(&rack, one) == RUSHHOPPER_ACCEPTED
        && meet(RUSHHOPPER_SORT_PROPOSAL, 0) && meet(RUSHHOPPER_SORT_STATE, 1) && meet(RUSHHOPPER_SORT_VOTE, 1)
        && rushhopper_hear_in(&rack, two, notice) == RUSHHOPPER_ACCEPTED
        && rushhopper_advance_in(&rack, two) == RUSHHOPPER_ACCEPTED;
}

static int conduct(void)
{
    size_t refusal = rushhopper_submit_in(&rack, two, urgent);
    int slots;

    for (slots = 1; slots < SLOTS && refusal == RUSHHOPPER_ACCEPTED; slots++)
        refusal = rushhopper_conduct_in(&rack).refusal;
    return refusal == RUSHHOPPER_ACCEPTED;
}

static void print_planes(const uint8_t *stored, size_t entries)
{
    size_t plane, slot;

    for (plane = 0; plane < 8; plane++) {
        printf("plane %zu:", plane + 1);
        for (slot = 0; slot < entries; slot++)
            printf(" %02x", (unsigned)stored[plane * entries + slot]);
        printf("\n");
    }
}

/* As tools/archive.py shows it: an urgent order has a mark instead of its highest bit. */
static void print_entry(size_t slot, uint64_t entry)
{
    const uint64_t order = entry & ~RUSHHOPPER_URGENT;

    printf("slot %zu ", slot);
    if (entry == 0)
        printf("empty\n");
    else
        printf("%s%" PRIu64 ":%" PRIu64 "\n", entry & RUSHHOPPER_URGENT ? "!" : "", order >> 32, order & UINT32_MAX);
}

/* Once as it was stored, and once without the last byte. */
static int read_back(const uint8_t *stored, size_t length)
{
    uint64_t entries[SLOTS];
    size_t refusal = rushhopper_to_entries(stored, length, entries, SLOTS), slot;

    if (refusal != RUSHHOPPER_ACCEPTED)
        return 0;
    printf("read back:\n");
    for (slot = 0; slot < length / 8; slot++)
        print_entry(slot, entries[slot]);
    refusal = rushhopper_to_entries(stored, length - 1, entries, SLOTS);
    printf("with a byte lost: refused, %zu: %s\n", refusal, rushhopper_word(refusal));
    return 1;
}

static int write_file(const char *name, const uint8_t *bytes, size_t length)
{
    FILE *const file = fopen(name, "wb");
    size_t written;

    if (file == NULL)
        return 0;
    written = fwrite(bytes, 1, length, file);
    return fclose(file) == 0 && written == length;
}

int main(int count, char **arguments)
{
    uint8_t stored[RUSHHOPPER_STORED_LENGTH(SLOTS)];
    size_t closed, length;

    if (!open_run() || !quarrel() || !conduct())
        return 1;
    closed = rushhopper_log_of(&rack, two).length;
    length = RUSHHOPPER_STORED_LENGTH(closed);
    if (rushhopper_store_log_in(&rack, two, stored, sizeof stored) != RUSHHOPPER_ACCEPTED)
        return 1;
    printf("controller %zu, %zu slots closed: %zu bytes stored\n", two.number, closed, length);
    print_planes(stored, closed);
    if (!read_back(stored, length))
        return 1;
    return count < 2 || write_file(arguments[1], stored, length) ? 0 : 1;
}
