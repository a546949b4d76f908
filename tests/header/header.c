/* Tries include/rushhopper.h on the library, as C99 and as C++: lengths, readers, words, counts, the archive, and what the
 * calls on a struct keep.
 * Writes each expectation that fails, and ends with 1 if any did.
 *
 *     gcc -std=c99 -Wall -Wextra -pedantic -I include tests/header/header.c FOLDER/librushhopper.a -o header
 */
#include <string.h>

#include "expect.h"
#include "rushhopper.h"

RUSHHOPPER_DEFINE_MEMORIES(smallest, 1, 1, 1, 1);
RUSHHOPPER_DEFINE_MEMORIES(rack, 3, 2, 0, 4);
RUSHHOPPER_DEFINE_MEMORIES(band, 3, 1024, 2, 1024);
RUSHHOPPER_DEFINE_MEMORIES(largest, RUSHHOPPER_MOST_REPLICAS, RUSHHOPPER_MOST_SLOTS, RUSHHOPPER_MOST_PHASES,
                           RUSHHOPPER_MOST_ROOM);

static const struct rushhopper_numbers alone = {1, 0, 1, 1, 1}, three = {3, 1, 2, 0, 4}, long_band = {3, 1, 1024, 2, 1024};
static const struct rushhopper_numbers most = {15, 7, 1024, 32, 1024}, rehearsal = {7, 3, 16, 16, 64};
static const struct rushhopper_replica zero = {0}, one = {1}, two = {2}, beyond = {3}, farthest = {SIZE_MAX};

/* The words of a record, by their places. */
enum { CRASHED, ROUND, SLOT, PHASE, EMPTY, FAST, RECORD_WORDS };

/* A replica's record where it stands: behind the count of known tags. */
static uint16_t *words_of(struct rushhopper_replica who)
{
    return rack.words + 1 + RECORD_WORDS * who.number;
}

/* An opening is accepted, and refused as soon as any memory is one element shorter: the lengths are exactly those needed. */
static void lengths_are_exact(struct rushhopper_memories *memories, struct rushhopper_numbers plan)
{
    size_t *const lengths[] = {
        &memories->words_length, &memories->orders_length, &memories->ballots_length, &memories->strip_length
    };
    size_t i;

    EXPECT(rushhopper_words_length(plan) == memories->words_length);
    EXPECT(rushhopper_orders_length(plan) == memories->orders_length);
    EXPECT(rushhopper_ballots_length(plan) == memories->ballots_length);
    EXPECT(rushhopper_strip_length(plan) == memories->strip_length);
    EXPECT(rushhopper_open_in(memories, plan, 0) == RUSHHOPPER_ACCEPTED);
    for (i = 0; i < sizeof lengths / sizeof lengths[0]; i++) {
        --*lengths[i];
        EXPECT(rushhopper_open_in(memories, plan, 0) == RUSHHOPPER_SHORT_TABLE);
        ++*lengths[i];
    }
}

/* Of this header and of the library. tests/header/other_layout.c has the other case. */
static void the_layout_is_the_librarys(void)
{
    EXPECT(rushhopper_layout() == RUSHHOPPER_LAYOUT);
}

/* The numbers of README.md, "Sizes of the memories". */
static void bytes_are_those_of_the_readme(void)
{
    static const struct { size_t n, slots, room, of_8, of_16, of_32; } rows[] = {
        {3, 64, 256, 16166, 25894, 45350}, {5, 64, 256, 24894, 40766, 72510}, {15, 64, 256, 68534, 115126, 208310},
        {3, 1024, 1024, 227366, 383014, 694310}, {5, 1024, 1024, 366654, 620606, 1128510},
        {15, 1024, 1024, 1063094, 1808566, 3299510}
    };
    size_t i;

    for (i = 0; i < sizeof rows / sizeof rows[0]; i++) {
        const size_t n = rows[i].n, slots = rows[i].slots, room = rows[i].room;
        EXPECT(RUSHHOPPER_BYTES(n, slots, 8, room) == rows[i].of_8);
        EXPECT(RUSHHOPPER_BYTES(n, slots, 16, room) == rows[i].of_16);
        EXPECT(RUSHHOPPER_BYTES(n, slots, 0, room) == rows[i].of_16);
        EXPECT(RUSHHOPPER_BYTES(n, slots, 32, room) == rows[i].of_32);
    }
}

static void nothing_goes_before_an_opening(void)
{
    const struct rushhopper_numbers bad = {4, 2, 2, 4, 4}, larger = {4, 1, 2, 16, 4};
    uint8_t stored[8];

    EXPECT(rushhopper_log_of(&rack, zero).length == 0);
    EXPECT(rushhopper_store_log_in(&rack, zero, stored, sizeof stored) == RUSHHOPPER_NO_SUCH_REPLICA);
    EXPECT(rushhopper_submit_in(&rack, zero, 5) == RUSHHOPPER_SPOILED_RECORD);
    EXPECT(rushhopper_crash_in(&rack, zero) == RUSHHOPPER_SPOILED_RECORD);
    EXPECT(rushhopper_conduct_in(&rack).refusal == RUSHHOPPER_SPOILED_RECORD);
    EXPECT(rushhopper_fill_strip_in(&rack, 0) == RUSHHOPPER_BAD_PLAN);
    EXPECT(rushhopper_open_in(&rack, bad, 0) == RUSHHOPPER_BAD_PLAN);
    EXPECT(rushhopper_open_in(&rack, larger, 0) == RUSHHOPPER_SHORT_TABLE);
    EXPECT(rack.numbers.n == 0);
}

static void an_opening_keeps_its_numbers(void)
{
    const struct rushhopper_numbers larger = {4, 1, 2, 16, 4};

    EXPECT(rushhopper_open_in(&rack, three, 0) == RUSHHOPPER_ACCEPTED);
    EXPECT(rack.numbers.n == 3 && rack.numbers.phases == 16 && RUSHHOPPER_DEFAULT_PHASES == 16);
    EXPECT(rushhopper_open_in(&rack, larger, 0) == RUSHHOPPER_SHORT_TABLE);
    EXPECT(rack.numbers.n == 3);
}

/* Entries 0 to 8 of the coin table are 1, entry 9 is 0. */
static void a_strip_is_filled_anew(void)
{
    EXPECT(rack.strip[0] == 1);
    EXPECT(rushhopper_fill_strip_in(&rack, 511) == RUSHHOPPER_BAD_PLAN);
    EXPECT(rack.strip[0] == 1);
    EXPECT(rushhopper_fill_strip_in(&rack, 9) == RUSHHOPPER_ACCEPTED);
    EXPECT(rack.strip[0] == 0);
}

/* Slots and room end at 1,024, for an opening, a strip and a step; a larger number is not cut to two bytes. */
static void bands_have_up_to_1024_slots(void)
{
    static const struct { size_t slots, room, refusal; } rows[] = {
        {64, 256, RUSHHOPPER_ACCEPTED}, {65, 256, RUSHHOPPER_ACCEPTED}, {64, 257, RUSHHOPPER_ACCEPTED},
        {1024, 1024, RUSHHOPPER_ACCEPTED}, {1025, 1024, RUSHHOPPER_BAD_PLAN}, {1024, 1025, RUSHHOPPER_BAD_PLAN},
        {65537, 1024, RUSHHOPPER_BAD_PLAN}, {1024, 65537, RUSHHOPPER_BAD_PLAN}
    };
    size_t i;

    EXPECT(RUSHHOPPER_MOST_REPLICAS == 15 && RUSHHOPPER_MOST_PHASES == 32);
    EXPECT(RUSHHOPPER_MOST_SLOTS == 1024 && RUSHHOPPER_MOST_ROOM == 1024);
    for (i = 0; i < sizeof rows / sizeof rows[0]; i++) {
        const struct rushhopper_numbers plan = {3, 1, rows[i].slots, 2, rows[i].room};
        const size_t of_strip = plan.slots > 1024 ? RUSHHOPPER_BAD_PLAN : RUSHHOPPER_ACCEPTED;
        const size_t of_step = rows[i].refusal == RUSHHOPPER_ACCEPTED ? RUSHHOPPER_ACCEPTED : RUSHHOPPER_SPOILED_RECORD;
        EXPECT(rushhopper_open_in(&band, plan, 0) == rows[i].refusal);
        band.numbers = plan;
        EXPECT(rushhopper_fill_strip_in(&band, 0) == of_strip);
        EXPECT(rushhopper_submit_in(&band, zero, 5) == of_step);
        EXPECT(rushhopper_crash_in(&band, zero) == of_step);
    }
}

/* Slot s begins at entry 32s of the coin table, and so 511 slots on there are the same coins. */
static void coins_come_again_after_511_slots(void)
{
    const size_t phases = long_band.phases;

    EXPECT(rushhopper_open_in(&band, long_band, 0) == RUSHHOPPER_ACCEPTED);
    EXPECT(band.strip[0] == 1 && band.strip[phases] == 0);
    EXPECT(memcmp(band.strip, band.strip + 511 * phases, 511 * phases) == 0);
    EXPECT(memcmp(band.strip, band.strip + 1022 * phases, 2 * phases) == 0);
}

/* One word less than the records of replicas 0 and 1 need, and only replica 0's is wholly there. */
static void a_crash_marks_its_record(void)
{
    EXPECT(rushhopper_crash_in(&rack, beyond) == RUSHHOPPER_NO_SUCH_REPLICA);
    EXPECT(rushhopper_crash_in(&rack, farthest) == RUSHHOPPER_NO_SUCH_REPLICA);
    rack.words_length = 12;
    EXPECT(rushhopper_crash_in(&rack, one) == RUSHHOPPER_SHORT_TABLE);
    EXPECT(rushhopper_crash_in(&rack, beyond) == RUSHHOPPER_NO_SUCH_REPLICA);
    rack.words_length = 0;
    EXPECT(rushhopper_crash_in(&rack, zero) == RUSHHOPPER_SHORT_TABLE && rushhopper_known_of(&rack) == 0);
    rack.words_length = rushhopper_words_length(rack.numbers);
    EXPECT(!rushhopper_record_of(&rack, one).crashed);
    EXPECT(rushhopper_crash_in(&rack, one) == RUSHHOPPER_ACCEPTED);
    EXPECT(rushhopper_record_of(&rack, one).crashed && !rushhopper_record_of(&rack, zero).crashed);
    EXPECT(rushhopper_crash_in(&rack, one) == RUSHHOPPER_CRASHED);
}

/* Behind the records stand other cells, which are nobody's record. */
static void readers_stay_in_the_run(void)
{
    const struct rushhopper_slot first = {0}, past = {SIZE_MAX};

    EXPECT(rushhopper_open_in(&rack, three, 0) == RUSHHOPPER_ACCEPTED);
    EXPECT(rushhopper_known_of(&rack) == 0);
    EXPECT(rushhopper_submit_in(&rack, zero, 7) == RUSHHOPPER_ACCEPTED);
    EXPECT(rushhopper_relay_in(&rack, one, 7) == RUSHHOPPER_ACCEPTED);
    EXPECT(rushhopper_known_of(&rack) == 1);
    EXPECT(!rushhopper_has_record(&rack, beyond) && !rushhopper_record_of(&rack, beyond).crashed);
    EXPECT(!rushhopper_has_record(&rack, farthest) && rushhopper_has_record(&rack, one));
    EXPECT(rushhopper_entry_of(&rack, farthest, first) == 0 && rushhopper_entry_of(&rack, zero, past) == 0);
}

/* The file opens a run of one replica, which closes slot 0 with 7: document 01's C1. */
static void a_file_is_played(void)
{
    static const uint8_t file[] = {0, 1, 0, 1, 1, 1, 0, 0, 0, 1, 0, 7, 0, 0, 0, 0, 0, 0, 0, 3, 0, 7, 0};
    static const char expected[] = "controllers 1 spare 0\nbench 0 lit 1 7\n";
    const struct rushhopper_slot first = {0};
    uint8_t report[64];
    struct rushhopper_played played = rushhopper_play_in(&smallest, alone, file, sizeof file, report, sizeof report);

    EXPECT(played.opened == 1 && smallest.numbers.n == 1);
    EXPECT(played.written == sizeof expected - 1 && memcmp(report, expected, sizeof expected - 1) == 0);
    EXPECT(rushhopper_record_of(&smallest, zero).slot == 1 && rushhopper_entry_of(&smallest, zero, first) == 7);
    played = rushhopper_play_in(&smallest, alone, file, sizeof file, report, 5);
    EXPECT(played.written == 5 && played.opened == 1);
    played = rushhopper_play_in(&smallest, alone, file + 9, sizeof file - 9, report, sizeof report);
    EXPECT(played.opened == 0 && smallest.numbers.n == 1);
}

/* An f above most.f is accepted; what `most` lets in, the memories may still be too short for. */
static void a_player_refuses_what_its_memories_cannot_hold(void)
{
    static const uint8_t file[] = {0, 3, 1, 2, 8, 4, 0, 0, 0};
    const struct rushhopper_numbers flat = {3, 0, 2, 8, 4};
    uint8_t report[128];
    struct rushhopper_played played = rushhopper_play_in(&rack, flat, file, sizeof file, report, sizeof report);

    EXPECT(played.opened == 1 && played.numbers.f == 1);
    played = rushhopper_play_in(&smallest, flat, file, sizeof file, report, sizeof report);
    EXPECT(played.opened == 0 && played.written == 12 && memcmp(report, "refused 1 2\n", 12) == 0);
}

/* A player with the rehearsal program's numbers: 0 stands for 16 phases and is let in, as 16 is; 17 get 2. A step and a strip
 * have no such phase limit of 0. */
static void more_than_16_phases_are_refused(void)
{
    static const uint8_t phases[] = {0, 16, 17, 33};
    static const size_t refusals[] = {0, 0, RUSHHOPPER_SHORT_TABLE, RUSHHOPPER_BAD_PLAN};
    const struct rushhopper_message last = {RUSHHOPPER_SORT_STATE, {0}, {16}, one};
    struct rushhopper_message past = last;
    size_t i;

    past.phase.index = 17;
    for (i = 0; i < sizeof phases; i++) {
        const uint8_t file[] = {0, 3, 1, 2, phases[i], 4, 0, 0, 0};
        uint8_t report[128] = {0};
        struct rushhopper_played played = rushhopper_play_in(&largest, rehearsal, file, sizeof file, report, sizeof report);
        EXPECT(played.opened == (refusals[i] == 0) && played.numbers.phases == (refusals[i] == 0 ? 16 : 0));
        EXPECT(refusals[i] == 0 || report[played.written - 2] == '0' + refusals[i]);
    }
    EXPECT(rushhopper_hear_in(&largest, zero, last) == RUSHHOPPER_NOT_SENT);
    EXPECT(rushhopper_hear_in(&largest, zero, past) == RUSHHOPPER_NO_SUCH_MESSAGE);
    largest.numbers.phases = 0;
    EXPECT(rushhopper_hear_in(&largest, zero, last) == RUSHHOPPER_SPOILED_RECORD);
    EXPECT(rushhopper_fill_strip_in(&largest, 0) == RUSHHOPPER_BAD_PLAN);
}

/* The kinds of records, by their numbers. */
enum kind { OPENING, SUBMIT, RELAY, BEGIN, HEAR, ADVANCE, CRASH, RUN_ON, WIDE_OPENING, WIDE_HEAR };

/* A step file that is being written. Where a number of slots fits one byte, it is written in the old kinds unless `wide`. */
struct step_file { uint8_t bytes[65536]; size_t length; int wide; };

static struct step_file narrow, wide;

static void start_file(struct step_file *file, int is_wide)
{
    file->length = 0;
    file->wide = is_wide;
}

/* A number in so many bytes, the lowest first. */
static void put(struct step_file *file, uint64_t number, size_t bytes)
{
    for (; bytes > 0; bytes--, number >>= 8)
        file->bytes[file->length++] = (uint8_t)(number & 255);
}

/* Of replicas of which none may crash; one phase, coins from entry 0. */
static void put_opening(struct step_file *file, size_t n, size_t slots, size_t room)
{
    const int is_wide = file->wide || slots > 255;

    put(file, is_wide ? WIDE_OPENING : OPENING, 1);
    put(file, n, 1);
    put(file, 0, 1);
    put(file, slots, is_wide ? 2 : 1);
    put(file, 1, 1);
    put(file, room, 2);
    put(file, 0, 2);
}

/* One of two replicas hears the other. */
static void put_hear(struct step_file *file, size_t receiver, size_t sort, size_t slot)
{
    const int is_wide = file->wide || slot > 255;

    put(file, is_wide ? WIDE_HEAR : HEAR, 1);
    put(file, receiver, 1);
    put(file, 1 - receiver, 1);
    put(file, sort, 1);
    put(file, slot, is_wide ? 2 : 1);
    put(file, sort == RUSHHOPPER_SORT_STATE || sort == RUSHHOPPER_SORT_VOTE ? 1 : 0, 1);
}

static void put_step(struct step_file *file, enum kind kind, size_t who)
{
    put(file, kind, 1);
    put(file, who, 1);
}

static void put_order(struct step_file *file, enum kind kind, size_t who, uint64_t tag)
{
    put_step(file, kind, who);
    put(file, tag, 8);
}

/* Two replicas close a slot with the order that is one above its number: they hear each other in every round. 16 records. */
static void put_slot_of_two(struct step_file *file, size_t slot)
{
    size_t sort;

    put_order(file, SUBMIT, 0, slot + 1);
    put_order(file, RELAY, 1, slot + 1);
    put_step(file, BEGIN, 0);
    put_step(file, BEGIN, 1);
    for (sort = RUSHHOPPER_SORT_PROPOSAL; sort <= RUSHHOPPER_SORT_VOTE; sort++) {
        put_hear(file, 0, sort, slot);
        put_hear(file, 1, sort, slot);
        put_step(file, ADVANCE, 0);
        put_step(file, ADVANCE, 1);
    }
}

/* All slots are closed; then the notice of the last is heard, heard again, and one of a slot behind it. */
static void put_band_of_two(struct step_file *file, size_t slots)
{
    size_t slot;

    put_opening(file, 2, slots, slots);
    for (slot = 0; slot < slots; slot++)
        put_slot_of_two(file, slot);
    put_hear(file, 0, RUSHHOPPER_SORT_NOTICE, slots - 1);
    put_hear(file, 0, RUSHHOPPER_SORT_NOTICE, slots - 1);
    put_hear(file, 0, RUSHHOPPER_SORT_NOTICE, slots);
}

/* The report of such a file, up to the first two entries. */
static int begins_as_a_band_of_two(const uint8_t *report, size_t slots)
{
    static const char form[] = "controllers 2 spare 0\nrefused %zu 18\nrefused %zu 16\nbench 0 lit %zu 1 2";
    char expected[128];

    snprintf(expected, sizeof expected, form, 16 * slots + 3, 16 * slots + 4, slots);
    return memcmp(report, expected, strlen(expected)) == 0;
}

/* A record of kind 0 or 4 and its new form give the same step: both files have the same report. */
static void wide_records_give_the_same_steps(size_t slots)
{
    static uint8_t of_narrow[RUSHHOPPER_REPORT_LENGTH(sizeof narrow.bytes, 2, 300)], of_wide[sizeof of_narrow];
    const struct rushhopper_slot last = {slots - 1};
    size_t written;

    start_file(&narrow, 0);
    start_file(&wide, 1);
    put_band_of_two(&narrow, slots);
    put_band_of_two(&wide, slots);
    written = rushhopper_play_in(&largest, most, narrow.bytes, narrow.length, of_narrow, sizeof of_narrow).written;
    EXPECT(rushhopper_record_of(&largest, one).slot == slots && rushhopper_entry_of(&largest, one, last) == slots);
    EXPECT(begins_as_a_band_of_two(of_narrow, slots));
    EXPECT(narrow.length < wide.length && written < rushhopper_report_length(narrow.length, largest.numbers));
    EXPECT(rushhopper_play_in(&largest, most, wide.bytes, wide.length, of_wide, sizeof of_wide).written == written);
    EXPECT(memcmp(of_narrow, of_wide, written) == 0);
}

/* What a player of at most these numbers says of an opening of one replica alone; 0 if it opens. */
static size_t refusal_of_opening(struct rushhopper_numbers player, struct step_file *file, size_t slots, size_t room)
{
    uint8_t report[64];
    struct rushhopper_played played;

    file->length = 0;
    put_opening(file, 1, slots, room);
    played = rushhopper_play_in(&largest, player, file->bytes, file->length, report, sizeof report);
    return played.opened ? 0 : (size_t)(report[played.written - 2] - '0');
}

/* By either kind of opening; a player with the rehearsal program's numbers has 16 slots and room for 64 tags. */
static void a_player_takes_bands_by_its_numbers(void)
{
    static const struct { size_t slots, room, of_rehearsal, of_most; } rows[] = {
        {16, 64, 0, 0}, {17, 64, 2, 0}, {64, 64, 2, 0}, {65, 64, 2, 0}, {255, 64, 2, 0}, {256, 64, 2, 0}, {1024, 64, 2, 0},
        {16, 65, 2, 0}, {16, 1024, 2, 0}, {1024, 1024, 2, 0}, {0, 64, 1, 1}, {1025, 64, 1, 1}, {65535, 64, 1, 1},
        {16, 0, 1, 1}, {16, 1025, 1, 1}, {16, 65535, 1, 1}
    };
    size_t i;

    start_file(&narrow, 0);
    start_file(&wide, 1);
    for (i = 0; i < sizeof rows / sizeof rows[0]; i++) {
        EXPECT(refusal_of_opening(rehearsal, &narrow, rows[i].slots, rows[i].room) == rows[i].of_rehearsal);
        EXPECT(refusal_of_opening(rehearsal, &wide, rows[i].slots, rows[i].room) == rows[i].of_rehearsal);
        EXPECT(refusal_of_opening(most, &narrow, rows[i].slots, rows[i].room) == rows[i].of_most);
        EXPECT(refusal_of_opening(most, &wide, rows[i].slots, rows[i].room) == rows[i].of_most);
    }
}

/* The most lines that a file can have: a begin is as short as a record can be, and here each is refused. */
static void no_report_fills_the_length_for_it(void)
{
    static uint8_t file[20001], report[RUSHHOPPER_REPORT_LENGTH(sizeof file, 15, 1024)];
    const struct rushhopper_numbers any = {SIZE_MAX, 0, SIZE_MAX, 32, 1024};
    size_t length, i;

    for (i = 0; i < sizeof file; i++)
        file[i] = i % 2 == 0 ? 3 : 0;
    for (length = 0; length <= sizeof file; length += length < 40 ? 1 : 499) {
        const size_t enough = rushhopper_report_length(length, most);
        EXPECT(enough <= sizeof report && enough == rushhopper_report_length(length, any));
        EXPECT(rushhopper_play_in(&largest, most, file, length, report, enough).written < enough);
    }
}

/* The longest line that a replica can have: tags of 20 digits in all of 1,024 slots. Room and log are full then. */
static void no_long_lines_fill_the_length_for_them(void)
{
    static const char full[] = "refused 3074 8\nrefused 3075 11\nbench 0 lit 1024 18446744073709551615 ";
    static uint8_t report[RUSHHOPPER_REPORT_LENGTH(sizeof narrow.bytes, 1, 1024)];
    const struct rushhopper_numbers one_of_1024 = {1, 0, 1024, 1, 1024};
    size_t order, written;

    start_file(&narrow, 0);
    put_opening(&narrow, 1, 1024, 1024);
    for (order = 0; order < 1024; order++) {
        put_order(&narrow, SUBMIT, 0, UINT64_MAX - order);
        put_step(&narrow, BEGIN, 0);
        put_step(&narrow, RUN_ON, 0);
    }
    put_order(&narrow, SUBMIT, 0, 1);
    put_step(&narrow, BEGIN, 0);
    written = rushhopper_play_in(&largest, one_of_1024, narrow.bytes, narrow.length, report, sizeof report).written;
    EXPECT(written == 22 + 15 + 16 + 17 + 1024 * 21 && written < rushhopper_report_length(narrow.length, one_of_1024));
    EXPECT(rushhopper_record_of(&largest, zero).slot == 1024 && rushhopper_known_of(&largest) == 1024);
    EXPECT(memcmp(report + 22, full, sizeof full - 1) == 0);
}

/* The message crosses as one struct: each of its parts is asked for. */
static void a_message_is_heard(void)
{
    const struct rushhopper_message sent = {RUSHHOPPER_SORT_PROPOSAL, {0}, {0}, one};
    struct rushhopper_message other_sort = sent, other_slot = sent, other_phase = sent, other_sender = sent;

    other_sort.sort = RUSHHOPPER_SORT_NOTICE + 1;
    other_slot.slot.index = 1;
    other_phase.phase.index = 1;
    other_sender.sender = beyond;
    EXPECT(rushhopper_open_in(&rack, three, 0) == RUSHHOPPER_ACCEPTED);
    EXPECT(rushhopper_submit_in(&rack, one, 7) == RUSHHOPPER_ACCEPTED);
    EXPECT(rushhopper_begin_in(&rack, one) == RUSHHOPPER_ACCEPTED);
    EXPECT(rushhopper_hear_in(&rack, zero, other_sort) == RUSHHOPPER_NO_SUCH_MESSAGE);
    EXPECT(rushhopper_hear_in(&rack, zero, other_slot) == RUSHHOPPER_NOT_SENT);
    EXPECT(rushhopper_hear_in(&rack, zero, other_phase) == RUSHHOPPER_NO_SUCH_MESSAGE);
    EXPECT(rushhopper_hear_in(&rack, zero, other_sender) == RUSHHOPPER_NO_SUCH_REPLICA);
    EXPECT(rushhopper_hear_in(&rack, zero, sent) == RUSHHOPPER_ACCEPTED);
    EXPECT(rushhopper_hear_in(&rack, zero, sent) == RUSHHOPPER_ALREADY_HEARD);
}

/* Replicas 0 and 1 propose what they have, hear each other in every round of phase 1 and so close the slot. */
static void two_close(struct rushhopper_memories *memories, size_t slot)
{
    size_t sort;

    EXPECT(rushhopper_begin_in(memories, zero) == RUSHHOPPER_ACCEPTED);
    EXPECT(rushhopper_begin_in(memories, one) == RUSHHOPPER_ACCEPTED);
    for (sort = RUSHHOPPER_SORT_PROPOSAL; sort <= RUSHHOPPER_SORT_VOTE; sort++) {
        const size_t phase = sort == RUSHHOPPER_SORT_PROPOSAL ? 0 : 1;
        const struct rushhopper_message of_zero = {sort, {slot}, {phase}, zero}, of_one = {sort, {slot}, {phase}, one};
        EXPECT(rushhopper_hear_in(memories, zero, of_one) == RUSHHOPPER_ACCEPTED);
        EXPECT(rushhopper_hear_in(memories, one, of_zero) == RUSHHOPPER_ACCEPTED);
        EXPECT(rushhopper_advance_in(memories, zero) == RUSHHOPPER_ACCEPTED);
        EXPECT(rushhopper_advance_in(memories, one) == RUSHHOPPER_ACCEPTED);
    }
}

static void two_close_the_first_slot(uint64_t tag_of_zero, uint64_t tag_of_one)
{
    EXPECT(rushhopper_open_in(&rack, three, 0) == RUSHHOPPER_ACCEPTED);
    EXPECT(rushhopper_submit_in(&rack, zero, tag_of_zero) == RUSHHOPPER_ACCEPTED);
    EXPECT(rushhopper_submit_in(&rack, one, tag_of_one) == RUSHHOPPER_ACCEPTED);
    two_close(&rack, 0);
}

static void a_notice_is_refused(void)
{
    const struct rushhopper_message sent = {RUSHHOPPER_SORT_NOTICE, {0}, {0}, one};
    struct rushhopper_message other_slot = sent, no_slot = sent, other_phase = sent, other_sender = sent;

    other_slot.slot.index = 1;
    no_slot.slot.index = 2;
    other_phase.phase.index = 1;
    other_sender.sender = two;
    EXPECT(RUSHHOPPER_SORT_NOTICE == 4);
    two_close_the_first_slot(7, 7);
    EXPECT(rushhopper_hear_in(&rack, two, other_slot) == RUSHHOPPER_NOT_SENT);
    EXPECT(rushhopper_hear_in(&rack, two, no_slot) == RUSHHOPPER_NO_SUCH_MESSAGE);
    EXPECT(rushhopper_hear_in(&rack, two, other_phase) == RUSHHOPPER_NO_SUCH_MESSAGE);
    EXPECT(rushhopper_hear_in(&rack, zero, other_sender) == RUSHHOPPER_NOT_SENT);
    EXPECT(rushhopper_hear_in(&rack, one, sent) == RUSHHOPPER_ALREADY_HEARD);
}

/* Equal tags close the slot with that tag, different ones close it as empty. */
static void a_notice_closes_a_slot(uint64_t tag_of_zero, uint64_t tag_of_one, uint64_t entry)
{
    const struct rushhopper_message sent = {RUSHHOPPER_SORT_NOTICE, {0}, {0}, one};
    const struct rushhopper_slot first = {0};
    struct rushhopper_ran ran;

    two_close_the_first_slot(tag_of_zero, tag_of_one);
    EXPECT(rushhopper_advance_in(&rack, two) == RUSHHOPPER_NOT_BEGUN);
    EXPECT(rushhopper_hear_in(&rack, two, sent) == RUSHHOPPER_ACCEPTED);
    EXPECT(rushhopper_hear_in(&rack, two, sent) == RUSHHOPPER_ALREADY_HEARD);
    ran = rushhopper_run_on_in(&rack, two);
    EXPECT(ran.refusal == RUSHHOPPER_ACCEPTED && ran.advances == 1);
    EXPECT(rushhopper_record_of(&rack, two).slot == 1 && rushhopper_entry_of(&rack, two, first) == entry);
    EXPECT(rushhopper_record_of(&rack, two).round == RUSHHOPPER_ROUND_IDLE);
    EXPECT(rushhopper_advance_in(&rack, two) == RUSHHOPPER_NOT_BEGUN);
}

/* Replica 0's own messages alone are below the quorum of three replicas. */
static void a_run_on_counts_its_advances(void)
{
    struct rushhopper_ran ran;

    EXPECT(rushhopper_open_in(&rack, three, 0) == RUSHHOPPER_ACCEPTED);
    EXPECT(rushhopper_run_on_in(&rack, zero).refusal == RUSHHOPPER_NOT_BEGUN);
    EXPECT(rushhopper_submit_in(&rack, zero, 7) == RUSHHOPPER_ACCEPTED);
    EXPECT(rushhopper_begin_in(&rack, zero) == RUSHHOPPER_ACCEPTED);
    EXPECT(rushhopper_run_on_in(&rack, zero).refusal == RUSHHOPPER_TOO_FEW_HEARD);
    EXPECT(rushhopper_open_in(&smallest, alone, 0) == RUSHHOPPER_ACCEPTED);
    EXPECT(rushhopper_submit_in(&smallest, zero, 7) == RUSHHOPPER_ACCEPTED);
    EXPECT(rushhopper_begin_in(&smallest, zero) == RUSHHOPPER_ACCEPTED);
    ran = rushhopper_run_on_in(&smallest, zero);
    EXPECT(ran.refusal == RUSHHOPPER_ACCEPTED && ran.advances == 3);
}

/* Begin proposes the first-ranked of the tags that replica 0 holds: its proposal is the first behind the known tags. */
static void urgent_tags_are_proposed_first(void)
{
    static const struct { uint64_t held[3], proposed; } rows[] = {
        {{9, 5, 7}, 5},
        {{5, RUSHHOPPER_URGENT + 9, 1}, RUSHHOPPER_URGENT + 9},
        {{RUSHHOPPER_URGENT + 9, 5, RUSHHOPPER_URGENT + 7}, RUSHHOPPER_URGENT + 7},
        {{RUSHHOPPER_URGENT - 1, UINT64_MAX, 1}, UINT64_MAX},
        {{UINT64_MAX, RUSHHOPPER_URGENT, 1}, RUSHHOPPER_URGENT}
    };
    size_t i, j;

    EXPECT(RUSHHOPPER_URGENT == 0x8000000000000000u && sizeof RUSHHOPPER_URGENT == sizeof(uint64_t));
    for (i = 0; i < sizeof rows / sizeof rows[0]; i++) {
        EXPECT(rushhopper_open_in(&rack, three, 0) == RUSHHOPPER_ACCEPTED);
        for (j = 0; j < 3; j++)
            EXPECT(rushhopper_submit_in(&rack, zero, rows[i].held[j]) == RUSHHOPPER_ACCEPTED);
        EXPECT(rushhopper_begin_in(&rack, zero) == RUSHHOPPER_ACCEPTED);
        EXPECT(rack.orders[rack.numbers.room] == rows[i].proposed);
    }
}

static void expect_conducted(struct rushhopper_memories *memories, size_t steps, size_t relays)
{
    const struct rushhopper_conducted conducted = rushhopper_conduct_in(memories);

    EXPECT(conducted.refusal == RUSHHOPPER_ACCEPTED && conducted.steps == steps && conducted.relays == relays);
}

/* Everything that is lent of the rack, as it was before calls that are to leave it so. */
static struct {
    uint16_t words[sizeof rack_words / sizeof rack_words[0]];
    uint64_t orders[sizeof rack_orders / sizeof rack_orders[0]];
    uint8_t ballots[sizeof rack_ballots], strip[sizeof rack_strip];
} before;

static void note_before(void)
{
    memcpy(before.words, rack_words, sizeof before.words);
    memcpy(before.orders, rack_orders, sizeof before.orders);
    memcpy(before.ballots, rack_ballots, sizeof before.ballots);
    memcpy(before.strip, rack_strip, sizeof before.strip);
}

static int is_as_before(void)
{
    return memcmp(before.words, rack_words, sizeof before.words) == 0
        && memcmp(before.orders, rack_orders, sizeof before.orders) == 0
        && memcmp(before.ballots, rack_ballots, sizeof before.ballots) == 0
        && memcmp(before.strip, rack_strip, sizeof before.strip) == 0;
}

/* The conductor is refused and leaves everything lent as it was. */
static void expect_not_conducted(size_t refusal)
{
    struct rushhopper_conducted conducted;

    note_before();
    conducted = rushhopper_conduct_in(&rack);
    EXPECT(conducted.refusal == refusal && conducted.steps == 0 && conducted.relays == 0);
    EXPECT(is_as_before());
}

/* Whether a replica is idle and has closed this many slots, the last of them with this entry. */
static int stands_behind(struct rushhopper_replica who, size_t closed, uint64_t entry)
{
    const struct rushhopper_record record = rushhopper_record_of(&rack, who);
    const struct rushhopper_slot last = {closed - 1};

    return record.round == RUSHHOPPER_ROUND_IDLE && record.slot == closed && rushhopper_entry_of(&rack, who, last) == entry;
}

/* The smaller tag first, wherever it is held; the second slot needs one relay less. No notice was heard on the way. */
static void slots_are_conducted(void)
{
    const struct rushhopper_message notice = {RUSHHOPPER_SORT_NOTICE, {0}, {0}, two};

    EXPECT(rushhopper_open_in(&rack, three, 0) == RUSHHOPPER_ACCEPTED);
    EXPECT(rushhopper_submit_in(&rack, zero, 7) == RUSHHOPPER_ACCEPTED);
    EXPECT(rushhopper_relay_in(&rack, one, 7) == RUSHHOPPER_ACCEPTED);
    EXPECT(rushhopper_submit_in(&rack, two, 5) == RUSHHOPPER_ACCEPTED);
    expect_conducted(&rack, 30, 2);
    EXPECT(stands_behind(zero, 1, 5) && stands_behind(one, 1, 5) && stands_behind(two, 1, 5));
    EXPECT(rushhopper_hear_in(&rack, zero, notice) == RUSHHOPPER_ACCEPTED);
    expect_conducted(&rack, 30, 1);
    EXPECT(stands_behind(zero, 2, 7) && stands_behind(one, 2, 7) && stands_behind(two, 2, 7));
    expect_not_conducted(RUSHHOPPER_LOG_FULL);
    EXPECT(rushhopper_submit_in(&rack, zero, 9) == RUSHHOPPER_ACCEPTED);
    expect_not_conducted(RUSHHOPPER_LOG_FULL);
}

/* Each order is handed in at another replica and takes the next slot: 30 steps and two relays past slot 255, too. */
static void a_long_band_is_conducted(void)
{
    struct rushhopper_replica who;
    struct rushhopper_slot slot;

    EXPECT(rushhopper_open_in(&band, long_band, 0) == RUSHHOPPER_ACCEPTED);
    for (slot.index = 0; slot.index < 300; slot.index++) {
        who.number = slot.index % 3;
        EXPECT(rushhopper_submit_in(&band, who, slot.index + 1) == RUSHHOPPER_ACCEPTED);
        expect_conducted(&band, 30, 2);
    }
    for (who.number = 0; who.number < 3; who.number++) {
        EXPECT(rushhopper_record_of(&band, who).slot == 300 && rushhopper_record_of(&band, who).fast == 300);
        for (slot.index = 0; slot.index < 300; slot.index++)
            EXPECT(rushhopper_entry_of(&band, who, slot) == slot.index + 1);
    }
}

/* Replica 1's notices of a band of which 300 slots are closed; numbers of slots are not cut to one byte or two. */
static void notices_of_a_long_band_are_heard(void)
{
    static const struct { size_t slot, refusal; } rows[] = {
        {0, RUSHHOPPER_ACCEPTED}, {256, RUSHHOPPER_ACCEPTED}, {256, RUSHHOPPER_ALREADY_HEARD},
        {299, RUSHHOPPER_ACCEPTED}, {300, RUSHHOPPER_NOT_SENT}, {1023, RUSHHOPPER_NOT_SENT},
        {1024, RUSHHOPPER_NO_SUCH_MESSAGE}, {65536 + 1, RUSHHOPPER_NO_SUCH_MESSAGE}, {SIZE_MAX, RUSHHOPPER_NO_SUCH_MESSAGE}
    };
    struct rushhopper_message notice = {RUSHHOPPER_SORT_NOTICE, {0}, {0}, one};
    size_t i;

    for (i = 0; i < sizeof rows / sizeof rows[0]; i++) {
        notice.slot.index = rows[i].slot;
        EXPECT(rushhopper_hear_in(&band, zero, notice) == rows[i].refusal);
    }
}

/* All hold the smaller tag, and one alone the urgent one. */
static void an_urgent_tag_is_conducted_first(void)
{
    const uint64_t urgent = RUSHHOPPER_URGENT + 9;

    EXPECT(rushhopper_open_in(&rack, three, 0) == RUSHHOPPER_ACCEPTED);
    EXPECT(rushhopper_submit_in(&rack, zero, 5) == RUSHHOPPER_ACCEPTED);
    EXPECT(rushhopper_relay_in(&rack, one, 5) == RUSHHOPPER_ACCEPTED);
    EXPECT(rushhopper_relay_in(&rack, two, 5) == RUSHHOPPER_ACCEPTED);
    EXPECT(rushhopper_submit_in(&rack, two, urgent) == RUSHHOPPER_ACCEPTED);
    expect_conducted(&rack, 30, 2);
    EXPECT(stands_behind(zero, 1, urgent) && stands_behind(one, 1, urgent) && stands_behind(two, 1, urgent));
    expect_conducted(&rack, 30, 0);
    EXPECT(stands_behind(zero, 2, 5) && stands_behind(one, 2, 5) && stands_behind(two, 2, 5));
}

/* 3 * L * L + L steps for L running replicas: the crashed one of three takes no part, and its order waits. */
static void any_number_of_running_replicas_is_conducted(void)
{
    const struct rushhopper_replica last = {14};

    EXPECT(rushhopper_open_in(&smallest, alone, 0) == RUSHHOPPER_ACCEPTED);
    EXPECT(rushhopper_submit_in(&smallest, zero, 7) == RUSHHOPPER_ACCEPTED);
    expect_conducted(&smallest, 4, 0);
    EXPECT(rushhopper_open_in(&largest, most, 0) == RUSHHOPPER_ACCEPTED);
    EXPECT(rushhopper_submit_in(&largest, last, 7) == RUSHHOPPER_ACCEPTED);
    expect_conducted(&largest, 690, 14);
    EXPECT(rushhopper_open_in(&rack, three, 0) == RUSHHOPPER_ACCEPTED);
    EXPECT(rushhopper_submit_in(&rack, one, 5) == RUSHHOPPER_ACCEPTED);
    EXPECT(rushhopper_crash_in(&rack, one) == RUSHHOPPER_ACCEPTED);
    expect_not_conducted(RUSHHOPPER_NOTHING_PENDING);
    EXPECT(rushhopper_submit_in(&rack, two, 7) == RUSHHOPPER_ACCEPTED);
    expect_conducted(&rack, 14, 1);
    EXPECT(stands_behind(zero, 1, 7) && stands_behind(two, 1, 7) && rushhopper_record_of(&rack, one).slot == 0);
    expect_not_conducted(RUSHHOPPER_NOTHING_PENDING);
}

/* Refusals 3, 2, 23, 22 and 12, each while those behind it are due too. A replica that has begun is not idle; once it has
 * crashed, its proposal stands in the way for good. */
static void a_conductor_refuses_in_its_order(void)
{
    size_t *const lengths[] = {&rack.words_length, &rack.orders_length, &rack.ballots_length, &rack.strip_length};
    size_t i;

    EXPECT(rushhopper_open_in(&rack, three, 0) == RUSHHOPPER_ACCEPTED);
    expect_not_conducted(RUSHHOPPER_NOTHING_PENDING);
    EXPECT(rushhopper_submit_in(&rack, one, 7) == RUSHHOPPER_ACCEPTED);
    EXPECT(rushhopper_begin_in(&rack, one) == RUSHHOPPER_ACCEPTED);
    expect_not_conducted(RUSHHOPPER_NOT_LEVEL);
    EXPECT(rushhopper_crash_in(&rack, one) == RUSHHOPPER_ACCEPTED);
    expect_not_conducted(RUSHHOPPER_NOT_LEVEL);
    EXPECT(rushhopper_crash_in(&rack, two) == RUSHHOPPER_ACCEPTED);
    expect_not_conducted(RUSHHOPPER_TOO_FEW_RUNNING);
    EXPECT(rushhopper_crash_in(&rack, zero) == RUSHHOPPER_ACCEPTED);
    expect_not_conducted(RUSHHOPPER_TOO_FEW_RUNNING);
    for (i = 0; i < sizeof lengths / sizeof lengths[0]; i++) {
        --*lengths[i];
        expect_not_conducted(RUSHHOPPER_SHORT_TABLE);
        rack.numbers.f = 2;
        expect_not_conducted(RUSHHOPPER_SPOILED_RECORD);
        rack.numbers.f = 1;
        ++*lengths[i];
    }
}

/* Two have closed slot 0 and the third has not; told of it, it closes too, and the next slot can be conducted. */
static void a_notice_makes_a_rack_level(void)
{
    const struct rushhopper_message notice = {RUSHHOPPER_SORT_NOTICE, {0}, {0}, one};

    two_close_the_first_slot(7, 7);
    EXPECT(rushhopper_submit_in(&rack, zero, 9) == RUSHHOPPER_ACCEPTED);
    expect_not_conducted(RUSHHOPPER_NOT_LEVEL);
    EXPECT(rushhopper_hear_in(&rack, two, notice) == RUSHHOPPER_ACCEPTED);
    expect_not_conducted(RUSHHOPPER_NOT_LEVEL);
    EXPECT(rushhopper_advance_in(&rack, two) == RUSHHOPPER_ACCEPTED);
    expect_conducted(&rack, 30, 2);
    EXPECT(stands_behind(zero, 2, 9) && stands_behind(one, 2, 9) && stands_behind(two, 2, 9));
}

/* No run leaves a replica in a round without a message of it, or one that has closed a slot which no other has begun: of that
 * slot only its notice is sent. */
static void records_alone_keep_a_rack_from_being_level(void)
{
    uint16_t *const record = words_of(two);

    EXPECT(rushhopper_open_in(&rack, three, 0) == RUSHHOPPER_ACCEPTED);
    EXPECT(rushhopper_submit_in(&rack, zero, 5) == RUSHHOPPER_ACCEPTED);
    record[ROUND] = RUSHHOPPER_ROUND_EXCHANGE;
    expect_not_conducted(RUSHHOPPER_NOT_LEVEL);
    EXPECT(rushhopper_crash_in(&rack, two) == RUSHHOPPER_ACCEPTED);
    record[SLOT] = 1;
    expect_not_conducted(RUSHHOPPER_NOT_LEVEL);
    record[SLOT] = 0;
    expect_conducted(&rack, 14, 1);
}

/* No run leaves a log that lacks what the others have logged. 5 is pending at replica 0 alone: it begins, both others hear
 * that, and everything else is refused and not counted. */
static void refused_steps_are_passed_over(void)
{
    EXPECT(rushhopper_open_in(&rack, three, 0) == RUSHHOPPER_ACCEPTED);
    EXPECT(rushhopper_submit_in(&rack, zero, 5) == RUSHHOPPER_ACCEPTED);
    expect_conducted(&rack, 30, 2);
    rack.orders[rack.numbers.room + rack.numbers.slots * rack.numbers.n] = 9;
    expect_conducted(&rack, 3, 0);
    EXPECT(rushhopper_record_of(&rack, zero).round == RUSHHOPPER_ROUND_EXCHANGE);
    EXPECT(stands_behind(one, 1, 5) && stands_behind(two, 1, 5));
    expect_not_conducted(RUSHHOPPER_NOT_LEVEL);
}

/* Whether a replica's record counts so many closed, empty and fast slots, and its log has as many empty entries. */
static int has_counts(const struct rushhopper_memories *memories, struct rushhopper_replica who, size_t closed, size_t empty,
                      size_t fast)
{
    const struct rushhopper_record record = rushhopper_record_of(memories, who);
    const struct rushhopper_log log = rushhopper_log_of(memories, who);
    size_t slot, empties = 0;

    for (slot = 0; slot < log.length; slot++)
        empties += log.entries[slot] == 0;
    return record.slot == closed && record.empty == empty && record.fast == fast && log.length == closed && empties == empty;
}

/* Slot 0 is closed as empty, by replica 2 on a notice; slot 1 by the conductor, in phase 1 at all of them. A crash keeps the
 * counts, and the next opening, on the same memories, begins with 0. */
static void counts_are_raised_as_slots_close(void)
{
    const struct rushhopper_message notice = {RUSHHOPPER_SORT_NOTICE, {0}, {0}, one};

    two_close_the_first_slot(7, 9);
    EXPECT(has_counts(&rack, zero, 1, 1, 1) && has_counts(&rack, one, 1, 1, 1));
    EXPECT(rushhopper_hear_in(&rack, two, notice) == RUSHHOPPER_ACCEPTED);
    EXPECT(has_counts(&rack, two, 0, 0, 0));
    EXPECT(rushhopper_advance_in(&rack, two) == RUSHHOPPER_ACCEPTED);
    EXPECT(has_counts(&rack, two, 1, 1, 0));
    expect_conducted(&rack, 30, 2);
    EXPECT(has_counts(&rack, zero, 2, 1, 2) && has_counts(&rack, one, 2, 1, 2) && has_counts(&rack, two, 2, 1, 1));
    EXPECT(rushhopper_crash_in(&rack, one) == RUSHHOPPER_ACCEPTED);
    EXPECT(rushhopper_record_of(&rack, one).crashed && has_counts(&rack, one, 2, 1, 2));
    EXPECT(rushhopper_open_in(&rack, three, 0) == RUSHHOPPER_ACCEPTED);
    EXPECT(has_counts(&rack, zero, 0, 0, 0) && has_counts(&rack, one, 0, 0, 0) && has_counts(&rack, two, 0, 0, 0));
}

/* Replica 2 has closed slot 0 in phase 1, and so its record still says when it closes slot 1 by a notice. */
static void a_notice_after_phase_1_is_not_fast(void)
{
    const struct rushhopper_message notice = {RUSHHOPPER_SORT_NOTICE, {1}, {0}, one};

    EXPECT(rushhopper_open_in(&rack, three, 0) == RUSHHOPPER_ACCEPTED);
    EXPECT(rushhopper_submit_in(&rack, zero, 5) == RUSHHOPPER_ACCEPTED);
    expect_conducted(&rack, 30, 2);
    EXPECT(rushhopper_submit_in(&rack, zero, 7) == RUSHHOPPER_ACCEPTED);
    EXPECT(rushhopper_relay_in(&rack, one, 7) == RUSHHOPPER_ACCEPTED);
    two_close(&rack, 1);
    EXPECT(rushhopper_record_of(&rack, two).phase == 1 && has_counts(&rack, two, 1, 0, 1));
    EXPECT(rushhopper_hear_in(&rack, two, notice) == RUSHHOPPER_ACCEPTED);
    EXPECT(rushhopper_advance_in(&rack, two) == RUSHHOPPER_ACCEPTED);
    EXPECT(has_counts(&rack, zero, 2, 0, 2) && has_counts(&rack, one, 2, 0, 2) && has_counts(&rack, two, 2, 0, 1));
}

/* Whom replicas 0, 1 and 2 hear in a round. */
static const size_t each_other[] = {1, 0, 0}, the_last[] = {2, 2, 0}, the_next[] = {1, 2, 0};

/* In slot 0 each replica hears one, and then each advances. */
static void all_hear(size_t sort, size_t phase, const size_t *heard)
{
    struct rushhopper_replica who;

    for (who.number = 0; who.number < 3; who.number++) {
        const struct rushhopper_message message = {sort, {0}, {phase}, {heard[who.number]}};
        EXPECT(rushhopper_hear_in(&rack, who, message) == RUSHHOPPER_ACCEPTED);
    }
    for (who.number = 0; who.number < 3; who.number++)
        EXPECT(rushhopper_advance_in(&rack, who) == RUSHHOPPER_ACCEPTED);
}

/* Replicas 0 and 1 propose 5 and send state 1, replica 2 proposes 9 and sends state 0. */
static void three_begin(size_t start)
{
    EXPECT(rushhopper_open_in(&rack, three, start) == RUSHHOPPER_ACCEPTED);
    EXPECT(rushhopper_submit_in(&rack, zero, 5) == RUSHHOPPER_ACCEPTED);
    EXPECT(rushhopper_relay_in(&rack, one, 5) == RUSHHOPPER_ACCEPTED);
    EXPECT(rushhopper_submit_in(&rack, two, 9) == RUSHHOPPER_ACCEPTED);
    EXPECT(rushhopper_begin_in(&rack, zero) == RUSHHOPPER_ACCEPTED);
    EXPECT(rushhopper_begin_in(&rack, one) == RUSHHOPPER_ACCEPTED);
    EXPECT(rushhopper_begin_in(&rack, two) == RUSHHOPPER_ACCEPTED);
    all_hear(RUSHHOPPER_SORT_PROPOSAL, 0, each_other);
}

/* Replicas 0 and 1 close slot 0 in phase 1; replica 2 has the outcome too, but not the order, and stays in the find round. */
static void one_stays_in_find(void)
{
    const struct rushhopper_message state = {RUSHHOPPER_SORT_STATE, {0}, {1}, one};

    three_begin(0);
    EXPECT(rushhopper_hear_in(&rack, two, state) == RUSHHOPPER_ACCEPTED);
    all_hear(RUSHHOPPER_SORT_STATE, 1, each_other);
    all_hear(RUSHHOPPER_SORT_VOTE, 1, each_other);
    EXPECT(has_counts(&rack, zero, 1, 0, 1) && has_counts(&rack, one, 1, 0, 1));
    EXPECT(rushhopper_record_of(&rack, two).round == RUSHHOPPER_ROUND_FIND && has_counts(&rack, two, 0, 0, 0));
}

/* The outcome was reached in phase 1, and counts when the slot closes: if it closes with the order found, not by a notice. */
static void an_order_found_is_fast(void)
{
    const struct rushhopper_message proposal = {RUSHHOPPER_SORT_PROPOSAL, {0}, {0}, one};
    const struct rushhopper_message notice = {RUSHHOPPER_SORT_NOTICE, {0}, {0}, one};

    one_stays_in_find();
    EXPECT(rushhopper_hear_in(&rack, two, proposal) == RUSHHOPPER_ACCEPTED);
    EXPECT(rushhopper_advance_in(&rack, two) == RUSHHOPPER_ACCEPTED);
    EXPECT(has_counts(&rack, two, 1, 0, 1));
    one_stays_in_find();
    EXPECT(rushhopper_hear_in(&rack, two, proposal) == RUSHHOPPER_ACCEPTED);
    EXPECT(rushhopper_hear_in(&rack, two, notice) == RUSHHOPPER_ACCEPTED);
    EXPECT(rushhopper_advance_in(&rack, two) == RUSHHOPPER_ACCEPTED);
    EXPECT(has_counts(&rack, two, 1, 0, 0));
}

/* Replica 1 has heard votes enough for the outcome, and then a notice: that goes ahead. */
static void a_notice_with_an_outcome_heard_is_not_fast(void)
{
    const struct rushhopper_message of_zero = {RUSHHOPPER_SORT_VOTE, {0}, {1}, zero};
    const struct rushhopper_message of_one = {RUSHHOPPER_SORT_VOTE, {0}, {1}, one};
    const struct rushhopper_message notice = {RUSHHOPPER_SORT_NOTICE, {0}, {0}, zero};

    three_begin(0);
    all_hear(RUSHHOPPER_SORT_STATE, 1, each_other);
    EXPECT(rushhopper_hear_in(&rack, zero, of_one) == RUSHHOPPER_ACCEPTED);
    EXPECT(rushhopper_hear_in(&rack, one, of_zero) == RUSHHOPPER_ACCEPTED);
    EXPECT(rushhopper_advance_in(&rack, zero) == RUSHHOPPER_ACCEPTED);
    EXPECT(rushhopper_hear_in(&rack, one, notice) == RUSHHOPPER_ACCEPTED);
    EXPECT(rushhopper_advance_in(&rack, one) == RUSHHOPPER_ACCEPTED);
    EXPECT(has_counts(&rack, zero, 1, 0, 1) && has_counts(&rack, one, 1, 0, 0));
}

/* All vote `?` in phase 1 and go on with the coin: entry 0 of the coin table is 1, and replica 2 has to find the order; entry 9
 * is 0, and leaves the slot empty. */
static void an_outcome_of_phase_2_is_not_fast(size_t start, size_t empty)
{
    const struct rushhopper_message proposal = {RUSHHOPPER_SORT_PROPOSAL, {0}, {0}, one};

    three_begin(start);
    all_hear(RUSHHOPPER_SORT_STATE, 1, the_last);
    all_hear(RUSHHOPPER_SORT_VOTE, 1, the_next);
    all_hear(RUSHHOPPER_SORT_STATE, 2, the_next);
    all_hear(RUSHHOPPER_SORT_VOTE, 2, the_next);
    if (!empty) {
        EXPECT(rushhopper_record_of(&rack, two).round == RUSHHOPPER_ROUND_FIND);
        EXPECT(rushhopper_hear_in(&rack, two, proposal) == RUSHHOPPER_ACCEPTED);
        EXPECT(rushhopper_advance_in(&rack, two) == RUSHHOPPER_ACCEPTED);
    }
    EXPECT(has_counts(&rack, zero, 1, empty, 0) && has_counts(&rack, one, 1, empty, 0) && has_counts(&rack, two, 1, empty, 0));
}

/* Both counts up to the closed slots of the longest band: the same two orders quarrel in every slot, and replica 2 is told. */
static void a_whole_band_is_wasted(void)
{
    struct rushhopper_message notice = {RUSHHOPPER_SORT_NOTICE, {0}, {0}, one};

    EXPECT(rushhopper_open_in(&band, long_band, 0) == RUSHHOPPER_ACCEPTED);
    EXPECT(rushhopper_submit_in(&band, zero, 7) == RUSHHOPPER_ACCEPTED);
    EXPECT(rushhopper_submit_in(&band, one, 9) == RUSHHOPPER_ACCEPTED);
    for (notice.slot.index = 0; notice.slot.index < 1024; notice.slot.index++) {
        two_close(&band, notice.slot.index);
        EXPECT(rushhopper_hear_in(&band, two, notice) == RUSHHOPPER_ACCEPTED);
        EXPECT(rushhopper_advance_in(&band, two) == RUSHHOPPER_ACCEPTED);
    }
    EXPECT(has_counts(&band, zero, 1024, 1024, 1024) && has_counts(&band, one, 1024, 1024, 1024));
    EXPECT(has_counts(&band, two, 1024, 1024, 0));
    EXPECT(rushhopper_conduct_in(&band).refusal == RUSHHOPPER_LOG_FULL);
}

/* Replicas 0 and 1 have closed slot 0 and replica 2 has not; then these counts stand in replica 1's record. */
static void put_counts(uint16_t empty, uint16_t fast)
{
    two_close_the_first_slot(7, 9);
    words_of(one)[EMPTY] = empty;
    words_of(one)[FAST] = fast;
}

/* Whoever acts, and whatever else each would be refused with. A crash looks at its own record only. */
static void counts_above_the_closed_slots_are_refused(uint16_t empty, uint16_t fast)
{
    const struct rushhopper_message notice = {RUSHHOPPER_SORT_NOTICE, {0}, {0}, one};

    put_counts(empty, fast);
    note_before();
    EXPECT(rushhopper_submit_in(&rack, zero, 5) == RUSHHOPPER_SPOILED_RECORD);
    EXPECT(rushhopper_relay_in(&rack, two, 7) == RUSHHOPPER_SPOILED_RECORD);
    EXPECT(rushhopper_begin_in(&rack, zero) == RUSHHOPPER_SPOILED_RECORD);
    EXPECT(rushhopper_hear_in(&rack, two, notice) == RUSHHOPPER_SPOILED_RECORD);
    EXPECT(rushhopper_advance_in(&rack, two) == RUSHHOPPER_SPOILED_RECORD);
    EXPECT(rushhopper_run_on_in(&rack, two).refusal == RUSHHOPPER_SPOILED_RECORD);
    EXPECT(rushhopper_conduct_in(&rack).refusal == RUSHHOPPER_SPOILED_RECORD);
    EXPECT(rushhopper_crash_in(&rack, one) == RUSHHOPPER_SPOILED_RECORD);
    EXPECT(is_as_before());
    EXPECT(rushhopper_crash_in(&rack, zero) == RUSHHOPPER_ACCEPTED);
}

/* The conductor's slot is not empty, and raises the other count from what it was. */
static void counts_up_to_the_closed_slots_are_accepted(uint16_t empty, uint16_t fast)
{
    const struct rushhopper_message notice = {RUSHHOPPER_SORT_NOTICE, {0}, {0}, one};
    struct rushhopper_record record;

    put_counts(empty, fast);
    EXPECT(rushhopper_submit_in(&rack, zero, 5) == RUSHHOPPER_ACCEPTED);
    EXPECT(rushhopper_relay_in(&rack, two, 5) == RUSHHOPPER_ACCEPTED);
    EXPECT(rushhopper_hear_in(&rack, two, notice) == RUSHHOPPER_ACCEPTED);
    EXPECT(rushhopper_run_on_in(&rack, two).refusal == RUSHHOPPER_ACCEPTED);
    expect_conducted(&rack, 30, 1);
    EXPECT(rushhopper_crash_in(&rack, one) == RUSHHOPPER_ACCEPTED);
    record = rushhopper_record_of(&rack, one);
    EXPECT(record.crashed && record.slot == 2 && record.empty == empty && record.fast == fast + 1);
}

/* Replica 1's record ends with word 12: with it the count is judged, without it the record is not there. */
static void counts_are_judged_where_the_record_is_there(void)
{
    EXPECT(rushhopper_open_in(&rack, three, 0) == RUSHHOPPER_ACCEPTED);
    words_of(one)[FAST] = 1;
    rack.words_length = 13;
    EXPECT(rushhopper_submit_in(&rack, zero, 5) == RUSHHOPPER_SPOILED_RECORD);
    EXPECT(rushhopper_crash_in(&rack, one) == RUSHHOPPER_SPOILED_RECORD);
    rack.words_length = 12;
    EXPECT(rushhopper_submit_in(&rack, zero, 5) == RUSHHOPPER_SHORT_TABLE);
    EXPECT(rushhopper_crash_in(&rack, one) == RUSHHOPPER_SHORT_TABLE);
    rack.words_length = rushhopper_words_length(rack.numbers);
}

/* The one record that a crash is lent, of a run of two slots; of a replica that is not of the run it may be any. */
static void a_crash_keeps_the_counts(void)
{
    static const struct { uint16_t slot, empty, fast; size_t refusal; } rows[] = {
        {0, 0, 0, RUSHHOPPER_ACCEPTED}, {1, 1, 0, RUSHHOPPER_ACCEPTED}, {1, 0, 1, RUSHHOPPER_ACCEPTED},
        {2, 2, 2, RUSHHOPPER_ACCEPTED}, {0, 1, 0, RUSHHOPPER_SPOILED_RECORD}, {0, 0, 1, RUSHHOPPER_SPOILED_RECORD},
        {1, 2, 1, RUSHHOPPER_SPOILED_RECORD}, {1, 1, 2, RUSHHOPPER_SPOILED_RECORD}, {2, 3, 0, RUSHHOPPER_SPOILED_RECORD},
        {2, 65535, 2, RUSHHOPPER_SPOILED_RECORD}, {2, 2, 65535, RUSHHOPPER_SPOILED_RECORD}
    };
    size_t i;

    EXPECT(sizeof(struct rushhopper_record) == RUSHHOPPER_RECORD_LENGTH * sizeof(uint16_t));
    EXPECT(RUSHHOPPER_RECORD_LENGTH == RECORD_WORDS);
    for (i = 0; i < sizeof rows / sizeof rows[0]; i++) {
        struct rushhopper_record record = {0, RUSHHOPPER_ROUND_IDLE, rows[i].slot, 1, rows[i].empty, rows[i].fast};
        EXPECT(rushhopper_crash(rack.numbers, beyond, &record) == RUSHHOPPER_NO_SUCH_REPLICA && record.crashed == 0);
        EXPECT(rushhopper_crash(rack.numbers, one, &record) == rows[i].refusal);
        EXPECT(record.crashed == (rows[i].refusal == RUSHHOPPER_ACCEPTED) && record.slot == rows[i].slot);
        EXPECT(record.empty == rows[i].empty && record.fast == rows[i].fast);
    }
}

/* What the archive takes, and one entry more. */
enum { ENTRIES = RUSHHOPPER_MOST_ENTRIES + 1 };

static struct { uint64_t entries[ENTRIES]; uint8_t stored[8 * ENTRIES]; } given, written;

/* Numbers and bytes of no order. */
static void fill_given(void)
{
    size_t i;

    for (i = 0; i < ENTRIES; i++)
        given.entries[i] = (i + 1) * 0x9e3779b97f4a7c15u;
    for (i = 0; i < sizeof given.stored; i++)
        given.stored[i] = (uint8_t)(given.entries[i / 8] >> 3 * (i % 8));
    memset(&written, UNTOUCHED, sizeof written);
}

/* Whether each byte occurs as often in one as in the other. */
static int has_the_same_bytes(const void *left, const void *right, size_t length)
{
    const uint8_t *const left_bytes = (const uint8_t *)left, *const right_bytes = (const uint8_t *)right;
    size_t of_left[256] = {0}, of_right[256] = {0}, i;

    for (i = 0; i < length; i++) {
        of_left[left_bytes[i]]++;
        of_right[right_bytes[i]]++;
    }
    return memcmp(of_left, of_right, sizeof of_left) == 0;
}

/* The bytes of the first entry are numbered from the highest, the second is urgent, and the third slot is empty. */
static void planes_have_the_highest_bytes_first(void)
{
    static const uint64_t log[] = {0x0102030405060708u, RUSHHOPPER_URGENT + 9, 0};
    static const uint8_t planes[] = {1, 128, 0, 2, 0, 0, 3, 0, 0, 4, 0, 0, 5, 0, 0, 6, 0, 0, 7, 0, 0, 8, 9, 0};

    EXPECT(RUSHHOPPER_STORED_LENGTH(3) == sizeof planes);
    EXPECT(rushhopper_to_planes(log, 3, written.stored, sizeof planes) == RUSHHOPPER_ACCEPTED);
    EXPECT(memcmp(written.stored, planes, sizeof planes) == 0);
    EXPECT(rushhopper_to_entries(planes, sizeof planes, written.entries, 3) == RUSHHOPPER_ACCEPTED);
    EXPECT(memcmp(written.entries, log, sizeof log) == 0);
}

/* Both calls, from either side, give back what was there. The outputs are longer, and the rest of them is left alone. */
static void the_archive_gives_back(size_t count)
{
    const size_t stored = RUSHHOPPER_STORED_LENGTH(count);

    fill_given();
    EXPECT(rushhopper_to_planes(given.entries, count, written.stored, sizeof written.stored) == RUSHHOPPER_ACCEPTED);
    EXPECT(has_the_same_bytes(given.entries, written.stored, stored));
    EXPECT(rushhopper_to_entries(written.stored, stored, written.entries, ENTRIES) == RUSHHOPPER_ACCEPTED);
    EXPECT(memcmp(given.entries, written.entries, stored) == 0);
    EXPECT(rushhopper_to_entries(given.stored, stored, written.entries, ENTRIES) == RUSHHOPPER_ACCEPTED);
    EXPECT(has_the_same_bytes(given.stored, written.entries, stored));
    EXPECT(rushhopper_to_planes(written.entries, count, written.stored, sizeof written.stored) == RUSHHOPPER_ACCEPTED);
    EXPECT(memcmp(given.stored, written.stored, stored) == 0);
    EXPECT(is_untouched(written.stored + stored, sizeof written.stored - stored));
    EXPECT(is_untouched(written.entries + count, sizeof written.entries - stored));
}

/* Each refusal while those behind it are due too, and the lengths on both sides of it; none writes anything. */
static void the_archive_refuses_in_its_order(void)
{
    static const struct { size_t entries, stored, refusal; } of_entries[] = {
        {0, 0, 0}, {1, 8, 0}, {1024, 8192, 0}, {1025, 8200, 1}, {1025, 8199, 1}, {1025, 0, 1}, {1024, 8191, 2}, {1024, 0, 2},
        {2, 15, 2}, {1, 7, 2}, {1, 0, 2}
    };
    static const struct { size_t stored, entries, refusal; } of_stored[] = {
        {0, 0, 0}, {8, 1, 0}, {8192, 1024, 0}, {8200, 1025, 1}, {8193, 1025, 1}, {8193, 0, 1}, {8191, 1024, 24}, {8191, 0, 24},
        {8188, 1024, 24}, {8185, 1024, 24}, {15, 1, 24}, {12, 2, 24}, {9, 2, 24}, {9, 0, 24}, {7, 1, 24}, {4, 1, 24}, {1, 0, 24},
        {8192, 1023, 2}, {16, 1, 2}, {8, 0, 2}
    };
    size_t i;

    EXPECT(RUSHHOPPER_MOST_ENTRIES == 1024 && RUSHHOPPER_MOST_ENTRIES == RUSHHOPPER_MOST_SLOTS);
    for (i = 0; i < sizeof of_entries / sizeof of_entries[0]; i++) {
        fill_given();
        EXPECT(rushhopper_to_planes(given.entries, of_entries[i].entries, written.stored, of_entries[i].stored)
               == of_entries[i].refusal);
        EXPECT(of_entries[i].refusal == RUSHHOPPER_ACCEPTED || is_untouched(written.stored, sizeof written.stored));
    }
    for (i = 0; i < sizeof of_stored / sizeof of_stored[0]; i++) {
        fill_given();
        EXPECT(rushhopper_to_entries(given.stored, of_stored[i].stored, written.entries, of_stored[i].entries)
               == of_stored[i].refusal);
        EXPECT(of_stored[i].refusal == RUSHHOPPER_ACCEPTED || is_untouched(written.entries, sizeof written.entries));
    }
}

/* Slot 0 is closed as empty, by replica 2 on a notice, and slot 1 with its urgent order. */
static void close_both_slots(void)
{
    const struct rushhopper_message notice = {RUSHHOPPER_SORT_NOTICE, {0}, {0}, one};

    two_close_the_first_slot(7, 9);
    EXPECT(rushhopper_log_of(&rack, zero).length == 1 && rushhopper_log_of(&rack, two).length == 0);
    EXPECT(rushhopper_hear_in(&rack, two, notice) == RUSHHOPPER_ACCEPTED);
    EXPECT(rushhopper_advance_in(&rack, two) == RUSHHOPPER_ACCEPTED);
    EXPECT(rushhopper_submit_in(&rack, two, RUSHHOPPER_URGENT + 5) == RUSHHOPPER_ACCEPTED);
    expect_conducted(&rack, 30, 2);
}

/* Of every replica, also one that has crashed, from behind the room for tags and the proposals; of one that has closed nothing,
 * nothing. */
static void logs_are_stored(void)
{
    static const uint8_t planes[] = {0, 128, 0, 0, 0, 0, 0, 0, 0, 0, 0, 0, 0, 0, 0, 5};
    struct rushhopper_replica who;

    close_both_slots();
    EXPECT(rushhopper_crash_in(&rack, one) == RUSHHOPPER_ACCEPTED);
    for (who.number = 0; who.number < 3; who.number++) {
        const struct rushhopper_log log = rushhopper_log_of(&rack, who);
        fill_given();
        EXPECT(log.length == 2 && log.entries == rack.orders + 4 + 2 * 3 + 2 * who.number);
        EXPECT(log.entries[0] == 0 && log.entries[1] == RUSHHOPPER_URGENT + 5);
        EXPECT(rushhopper_store_log_in(&rack, who, written.stored, sizeof written.stored) == RUSHHOPPER_ACCEPTED);
        EXPECT(memcmp(written.stored, planes, sizeof planes) == 0);
        EXPECT(is_untouched(written.stored + sizeof planes, sizeof written.stored - sizeof planes));
    }
    EXPECT(rushhopper_open_in(&rack, three, 0) == RUSHHOPPER_ACCEPTED);
    fill_given();
    EXPECT(rushhopper_store_log_in(&rack, zero, written.stored, 0) == RUSHHOPPER_ACCEPTED);
    EXPECT(is_untouched(written.stored, sizeof written.stored));
}

static void expect_not_stored(struct rushhopper_replica who, size_t stored_length, size_t refusal)
{
    fill_given();
    EXPECT(rushhopper_store_log_in(&rack, who, written.stored, stored_length) == refusal);
    EXPECT(is_untouched(written.stored, sizeof written.stored));
}

/* Replica 2's log is the last of the orders. Without its last word or entry a memory still has the others' records and logs. By
 * the numbers alone, the entries that nobody has would be a proposal and an entry of replica 1. */
static void logs_that_are_not_there_are_refused(void)
{
    const struct rushhopper_slot first = {0}, past = {3};

    close_both_slots();
    EXPECT(rushhopper_entry_of(&rack, farthest, first) == 0 && rushhopper_entry_of(&rack, zero, past) == 0);
    expect_not_stored(beyond, 16, RUSHHOPPER_NO_SUCH_REPLICA);
    expect_not_stored(farthest, 0, RUSHHOPPER_NO_SUCH_REPLICA);
    EXPECT(rushhopper_log_of(&rack, beyond).length == 0 && rushhopper_log_of(&rack, farthest).length == 0);
    expect_not_stored(two, 15, RUSHHOPPER_SHORT_TABLE);
    rack.words_length = 18;
    expect_not_stored(two, 16, RUSHHOPPER_SHORT_TABLE);
    EXPECT(rushhopper_store_log_in(&rack, one, written.stored, 16) == RUSHHOPPER_ACCEPTED);
    rack.words_length = rushhopper_words_length(rack.numbers);
    --rack.orders_length;
    expect_not_stored(two, 16, RUSHHOPPER_SHORT_TABLE);
    EXPECT(rushhopper_log_of(&rack, two).length == 0 && rushhopper_log_of(&rack, one).length == 2);
    rack.orders_length = 0;
    expect_not_stored(one, 16, RUSHHOPPER_SHORT_TABLE);
    words_of(one)[SLOT] = 3;
    expect_not_stored(one, 0, RUSHHOPPER_SPOILED_RECORD);
    rack.orders_length = rushhopper_orders_length(rack.numbers);
    EXPECT(rushhopper_log_of(&rack, one).length == 0 && rushhopper_log_of(&rack, two).length == 2);
}

static void words_are_the_documents(void)
{
    static const struct { size_t refusal; const char *word; } expected[] = {
        {RUSHHOPPER_BAD_PLAN, "bad plan"}, {RUSHHOPPER_SHORT_TABLE, "short table"},
        {RUSHHOPPER_SPOILED_RECORD, "spoiled record"}, {RUSHHOPPER_NO_SUCH_REPLICA, "no such bench"},
        {RUSHHOPPER_CRASHED, "dark"}, {RUSHHOPPER_BLANK_TAG, "blank tag"}, {RUSHHOPPER_ALREADY_HELD, "held"},
        {RUSHHOPPER_TAG_ROOM_FULL, "tag room full"}, {RUSHHOPPER_UNKNOWN_TAG, "unknown tag"}, {RUSHHOPPER_BUSY, "busy"},
        {RUSHHOPPER_LOG_FULL, "log full"}, {RUSHHOPPER_NOTHING_PENDING, "nothing pending"}, {RUSHHOPPER_NOT_BEGUN, "idle"},
        {RUSHHOPPER_TOO_FEW_HEARD, "too few heard"}, {RUSHHOPPER_PHASES_USED_UP, "phases used up"},
        {RUSHHOPPER_NO_SUCH_MESSAGE, "no such message"}, {RUSHHOPPER_NOT_SENT, "unsent"},
        {RUSHHOPPER_ALREADY_HEARD, "heard"}, {RUSHHOPPER_UNKNOWN_KIND, "unknown kind"},
        {RUSHHOPPER_CUT_RECORD, "cut record"}, {RUSHHOPPER_OUT_OF_PLACE, "out of place"},
        {RUSHHOPPER_NOT_LEVEL, "not level"}, {RUSHHOPPER_TOO_FEW_RUNNING, "too few lit"},
        {RUSHHOPPER_ODD_LENGTH, "odd length"}
    };
    size_t i;

    for (i = 0; i < sizeof expected / sizeof expected[0]; i++)
        EXPECT(strcmp(rushhopper_word(expected[i].refusal), expected[i].word) == 0);
    EXPECT(RUSHHOPPER_NOT_LEVEL == 22 && RUSHHOPPER_TOO_FEW_RUNNING == 23 && RUSHHOPPER_ODD_LENGTH == 24);
    EXPECT(strcmp(rushhopper_word(RUSHHOPPER_ODD_LENGTH + 1), "no such refusal") == 0);
    EXPECT(strcmp(rushhopper_word(RUSHHOPPER_OTHER_LAYOUT), "other layout") == 0);
}

static void step_files_are_played(void)
{
    a_file_is_played();
    a_player_refuses_what_its_memories_cannot_hold();
    more_than_16_phases_are_refused();
    wide_records_give_the_same_steps(2);
    wide_records_give_the_same_steps(255);
    wide_records_give_the_same_steps(256);
    wide_records_give_the_same_steps(300);
    a_player_takes_bands_by_its_numbers();
    no_report_fills_the_length_for_it();
    no_long_lines_fill_the_length_for_them();
}

static void records_have_counts(void)
{
    counts_are_raised_as_slots_close();
    a_notice_after_phase_1_is_not_fast();
    an_order_found_is_fast();
    a_notice_with_an_outcome_heard_is_not_fast();
    an_outcome_of_phase_2_is_not_fast(0, 0);
    an_outcome_of_phase_2_is_not_fast(9, 1);
    a_whole_band_is_wasted();
    counts_above_the_closed_slots_are_refused(2, 0);
    counts_above_the_closed_slots_are_refused(0, 2);
    counts_above_the_closed_slots_are_refused(2, 1);
    counts_above_the_closed_slots_are_refused(1, 2);
    counts_above_the_closed_slots_are_refused(65535, 0);
    counts_above_the_closed_slots_are_refused(0, 65535);
    counts_up_to_the_closed_slots_are_accepted(0, 0);
    counts_up_to_the_closed_slots_are_accepted(1, 0);
    counts_up_to_the_closed_slots_are_accepted(0, 1);
    counts_up_to_the_closed_slots_are_accepted(1, 1);
    counts_are_judged_where_the_record_is_there();
    a_crash_keeps_the_counts();
}

static void logs_are_archived(void)
{
    planes_have_the_highest_bytes_first();
    the_archive_gives_back(0);
    the_archive_gives_back(1);
    the_archive_gives_back(2);
    the_archive_gives_back(255);
    the_archive_gives_back(256);
    the_archive_gives_back(1024);
    the_archive_refuses_in_its_order();
    logs_are_stored();
    logs_that_are_not_there_are_refused();
}

int main(void)
{
    the_layout_is_the_librarys();
    nothing_goes_before_an_opening();
    lengths_are_exact(&smallest, alone);
    lengths_are_exact(&rack, three);
    lengths_are_exact(&band, long_band);
    lengths_are_exact(&largest, most);
    bytes_are_those_of_the_readme();
    an_opening_keeps_its_numbers();
    a_strip_is_filled_anew();
    bands_have_up_to_1024_slots();
    coins_come_again_after_511_slots();
    a_crash_marks_its_record();
    readers_stay_in_the_run();
    a_message_is_heard();
    a_notice_is_refused();
    a_notice_closes_a_slot(7, 7, 7);
    a_notice_closes_a_slot(7, 9, 0);
    a_run_on_counts_its_advances();
    urgent_tags_are_proposed_first();
    slots_are_conducted();
    a_long_band_is_conducted();
    notices_of_a_long_band_are_heard();
    an_urgent_tag_is_conducted_first();
    any_number_of_running_replicas_is_conducted();
    a_conductor_refuses_in_its_order();
    a_notice_makes_a_rack_level();
    records_alone_keep_a_rack_from_being_level();
    refused_steps_are_passed_over();
    records_have_counts();
    step_files_are_played();
    logs_are_archived();
    words_are_the_documents();
    return failed;
}
