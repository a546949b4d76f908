/* Rushhopper, a proved order log: its calls for C and C++.
 *
 * The library keeps nothing. A run lives in three memories and a strip that the caller owns and lends to every call, each as
 * a pointer and a count of elements; none may be null. docs/TABLES.md has the layout of each. The two calls for the archive are
 * lent entries and bytes by the same rules, and no run.
 *
 * No two of what a call is lent may overlap: of the memories and the strip, of these and the file and report of a step file that is
 * played, and of the archive's entries and stored bytes. One call at a time on a rack: until it answers, nobody else may change or
 * read what it is lent. Racks that share nothing may be called side by side.
 *
 * A call answers 0 if it is accepted, else the number of the refusal (enum rushhopper_refusal), and a refused call leaves
 * everything lent as it was. Any number may be handed in: one that is out of range is refused.
 *
 * Part 1 declares what the library has. Part 2 is written over it, for callers who keep the memories in one struct:
 *
 *     RUSHHOPPER_DEFINE_MEMORIES(rack, 3, 2, 4, 4);            // 3 replicas, 2 slots, 4 phases, room for 4 tags
 *     struct rushhopper_numbers plan = {3, 1, 2, 4, 4};        // n, f, slots, phases, room
 *     struct rushhopper_replica first = {0};
 *     uint8_t stored[RUSHHOPPER_STORED_LENGTH(2)];
 *
 *     refusal = rushhopper_open_in(&rack, plan, 0);
 *     refusal = rushhopper_submit_in(&rack, first, 5);
 *     conducted = rushhopper_conduct_in(&rack);                // all replicas close slot 0 with 5
 *     refusal = rushhopper_store_log_in(&rack, first, stored, sizeof stored);      // its log, for the archive
 *
 * Document 01 says "controller" for replica, "spare" for f, "quota" for quorum (n - f), "lit" for running, "dark" for
 * crashed. */
#ifndef RUSHHOPPER_H
#define RUSHHOPPER_H

#include <stddef.h>
#include <stdint.h>

#ifdef __cplusplus
extern "C" {
#endif

/* ---- Part 1: the library ---- */

/* The layout of the structs below and of the memories. It rises with every request that moves one of them. The library has its
 * number, too: where they differ, this program was built with the header of another layout, and no call may be made. The
 * openings of part 2 ask; who uses part 1 alone asks before the first call. */
#define RUSHHOPPER_LAYOUT 1
uint32_t rushhopper_layout(void);

/* The numbers of a run: n replicas, f of which may crash, slots, phases to a slot, and room for known tags.
 * n 1 to 15 with 2f + 1 at most n, slots 1 to 1,024, phases 1 to 32, room 1 to 1,024. */
struct rushhopper_numbers { size_t n, f, slots, phases, room; };

/* These limits by name, for memories that are to hold any run. */
#define RUSHHOPPER_MOST_REPLICAS 15
#define RUSHHOPPER_MOST_SLOTS 1024
#define RUSHHOPPER_MOST_PHASES 32
#define RUSHHOPPER_MOST_ROOM 1024

/* An order's tag is any number but 0. With this bit, its highest, it is urgent and ranks before all tags without it; then the
 * smaller number counts. */
#define RUSHHOPPER_URGENT ((uint64_t)1 << 63)

/* Three kinds of index: a call that wants one does not accept another. Replicas and slots count from 0, phases from 1. */
struct rushhopper_replica { size_t number; };
struct rushhopper_slot { size_t index; };
struct rushhopper_phase { size_t index; };

/* A replica's record. crashed is 0 for a running replica; round is an enum rushhopper_round; slot is the number of slots it
 * has closed, and so its current slot; phase counts in a state or vote round.
 *
 * Two counts are raised when a slot closes, and are never above slot: empty counts the empty slots that it has closed, fast the
 * closed slots whose outcome it reached in phase 1 itself, with a find round after it or without. A slot closed by a notice is
 * not fast. */
struct rushhopper_record { uint16_t crashed, round, slot, phase, empty, fast; };

/* How many words stand before the records in the memory, the first of them the count of known tags; and how many a record has:
 * those of the struct, in its order. */
#define RUSHHOPPER_HEADER_LENGTH 1
#define RUSHHOPPER_RECORD_LENGTH 6

enum rushhopper_round {
    RUSHHOPPER_ROUND_IDLE = 0,
    RUSHHOPPER_ROUND_EXCHANGE = 1,
    RUSHHOPPER_ROUND_STATE = 2,
    RUSHHOPPER_ROUND_VOTE = 3,
    RUSHHOPPER_ROUND_FIND = 4
};

enum rushhopper_sort {
    RUSHHOPPER_SORT_PROPOSAL = 1,
    RUSHHOPPER_SORT_STATE = 2,
    RUSHHOPPER_SORT_VOTE = 3,
    RUSHHOPPER_SORT_NOTICE = 4 /* the sender has closed the slot, and this is its entry */
};

/* A message, as rushhopper_hear_in takes it: sort is an enum rushhopper_sort; the phase of a proposal or notice is 0. */
struct rushhopper_message {
    size_t sort;
    struct rushhopper_slot slot;
    struct rushhopper_phase phase;
    struct rushhopper_replica sender;
};

/* The refusals of documents 01 and 02; their own word stands behind a name that differs. 13, 14 and 15 are given only where
 * the replica has heard no notice of its current slot. 19, 20 and 21 occur in step files only, 22, 23 and 24 in none. */
enum rushhopper_refusal {
    RUSHHOPPER_ACCEPTED = 0,
    RUSHHOPPER_BAD_PLAN = 1,          /* opening, strip or archive: a number beyond the limits */
    RUSHHOPPER_SHORT_TABLE = 2,       /* a lent memory or strip shorter than the run needs; archive: a short output */
    RUSHHOPPER_SPOILED_RECORD = 3,    /* numbers beyond the limits, more known tags than room, or a record out of range;
                                         also one with a count above its closed slots */
    RUSHHOPPER_NO_SUCH_REPLICA = 4,   /* "no such bench": the acting replica or the sender is n or more */
    RUSHHOPPER_CRASHED = 5,           /* "dark": the acting replica has crashed */
    RUSHHOPPER_BLANK_TAG = 6,         /* tag 0 */
    RUSHHOPPER_ALREADY_HELD = 7,      /* "held": the replica holds this tag */
    RUSHHOPPER_TAG_ROOM_FULL = 8,     /* submit of an unknown tag, no room */
    RUSHHOPPER_UNKNOWN_TAG = 9,       /* relay of a tag never submitted */
    RUSHHOPPER_BUSY = 10,             /* begin in a round */
    RUSHHOPPER_LOG_FULL = 11,         /* begin or conduct, all slots closed */
    RUSHHOPPER_NOTHING_PENDING = 12,  /* begin or conduct, no pending tag: at that replica, at any running one */
    RUSHHOPPER_NOT_BEGUN = 13,        /* "idle": advance or run on while idle, no notice heard for the next slot */
    RUSHHOPPER_TOO_FEW_HEARD = 14,    /* below the quorum; in the find round, no majority */
    RUSHHOPPER_PHASES_USED_UP = 15,   /* the vote round of the last phase would go on to another */
    RUSHHOPPER_NO_SUCH_MESSAGE = 16,  /* hear: sort, slot or phase out of range; proposals and notices have phase 0 */
    RUSHHOPPER_NOT_SENT = 17,         /* "unsent": the sender hasn't sent it; of a notice, hasn't closed that slot */
    RUSHHOPPER_ALREADY_HEARD = 18,    /* "heard": the receiver has heard it; its own, since it was sent */
    RUSHHOPPER_UNKNOWN_KIND = 19,     /* a record of no known kind */
    RUSHHOPPER_CUT_RECORD = 20,       /* the file ends inside a record */
    RUSHHOPPER_OUT_OF_PLACE = 21,     /* a step before an accepted opening, or an opening after one */
    RUSHHOPPER_NOT_LEVEL = 22,        /* conduct: not all running ones idle at one slot, or a message of it was sent */
    RUSHHOPPER_TOO_FEW_RUNNING = 23,  /* "too few lit": conduct, fewer replicas running than the quorum */
    RUSHHOPPER_ODD_LENGTH = 24,       /* archive: stored bytes that are no multiple of 8 */
    RUSHHOPPER_OTHER_LAYOUT = 255     /* none of the documents', and never the library's: rushhopper_open_in alone, where the
                                         program was built with the header of another layout (RUSHHOPPER_LAYOUT) */
};

/* refusal 0: the numbers of the run that was opened (phases 0 became RUSHHOPPER_DEFAULT_PHASES); else all 0 */
struct rushhopper_opened { size_t refusal; struct rushhopper_numbers numbers; };
/* refusal 0: how many advances were accepted; else 0 */
struct rushhopper_ran { size_t refusal, advances; };
/* refusal 0: how many steps besides relays, and how many relays, were accepted; else both 0 */
struct rushhopper_conducted { size_t refusal, steps, relays; };
/* written: how many bytes of the report stand in the buffer; opened: whether (1) the file opened a run, and its numbers,
 * else all 0 */
struct rushhopper_played { size_t written, opened; struct rushhopper_numbers numbers; };

/* What a phase limit of 0 stands for in an opening, and only there. */
#define RUSHHOPPER_DEFAULT_PHASES 16

/* How many elements of each memory, and of the strip, a run needs; constant for constant numbers. Phases of 0 count as in an
 * opening. The functions are the same for numbers that are known only when the program runs. */
#define RUSHHOPPER_PHASES(phases) ((size_t)((phases) == 0 ? RUSHHOPPER_DEFAULT_PHASES : (phases)))
#define RUSHHOPPER_WORDS_LENGTH(n, slots, phases, room) \
    (RUSHHOPPER_HEADER_LENGTH + RUSHHOPPER_RECORD_LENGTH * (size_t)(n) + (size_t)(room) + \
     (size_t)(slots) * (2 * RUSHHOPPER_PHASES(phases) + 2) * (size_t)(n))
#define RUSHHOPPER_ORDERS_LENGTH(n, slots, room) ((size_t)(room) + 2 * (size_t)(slots) * (size_t)(n))
#define RUSHHOPPER_BALLOTS_LENGTH(n, slots, phases) (2 * (size_t)(slots) * RUSHHOPPER_PHASES(phases) * (size_t)(n))
#define RUSHHOPPER_STRIP_LENGTH(slots, phases) ((size_t)(slots) * RUSHHOPPER_PHASES(phases))

/* The bytes of all of them together. */
#define RUSHHOPPER_BYTES(n, slots, phases, room) \
    (sizeof(uint16_t) * RUSHHOPPER_WORDS_LENGTH(n, slots, phases, room) + \
     sizeof(uint64_t) * RUSHHOPPER_ORDERS_LENGTH(n, slots, room) + \
     RUSHHOPPER_BALLOTS_LENGTH(n, slots, phases) + RUSHHOPPER_STRIP_LENGTH(slots, phases))

static inline size_t rushhopper_words_length(struct rushhopper_numbers numbers)
{
    return RUSHHOPPER_WORDS_LENGTH(numbers.n, numbers.slots, numbers.phases, numbers.room);
}

static inline size_t rushhopper_orders_length(struct rushhopper_numbers numbers)
{
    return RUSHHOPPER_ORDERS_LENGTH(numbers.n, numbers.slots, numbers.room);
}

static inline size_t rushhopper_ballots_length(struct rushhopper_numbers numbers)
{
    return RUSHHOPPER_BALLOTS_LENGTH(numbers.n, numbers.slots, numbers.phases);
}

static inline size_t rushhopper_strip_length(struct rushhopper_numbers numbers)
{
    return RUSHHOPPER_STRIP_LENGTH(numbers.slots, numbers.phases);
}

/* A length of buffer that no report of a file fills, for players of at most n replicas and slots.
 *
 * By the lengths of the lines (crates/files/specs/Lines). A record has at least two bytes, but the last may be cut after one,
 * and at most one line. `refused K R` has 12 bytes and the digits of K: 16 for up to 9,999 records, 20 for less than a hundred
 * million, 32 for any 64-bit K. The one accepted opening's line has at most 23 bytes, and one byte is to spare. A replica's
 * line at the end has at most 19 bytes and 21 for each slot; the theorem `report_fits` of crates/files/proofs/Fits has the
 * same, and in all at most 24 * K + n * (19 + 21 * slots) bytes for a file of K bytes, K below 100,000. */
#define RUSHHOPPER_MOST_RECORDS(file_length) ((size_t)(file_length) / 2 + 1)
#define RUSHHOPPER_MOST_LINE(records) ((size_t)((records) < 10000 ? 16 : (records) < 100000000 ? 20 : 32))
#define RUSHHOPPER_REPORT_LENGTH(file_length, n, slots) \
    (RUSHHOPPER_MOST_RECORDS(file_length) * RUSHHOPPER_MOST_LINE(RUSHHOPPER_MOST_RECORDS(file_length)) + 24 + \
     (size_t)(n) * (19 + 21 * (size_t)(slots)))

/* The same for a player of at most the numbers `most`; no run has more replicas or slots than the limits. */
static inline size_t rushhopper_report_length(size_t file_length, struct rushhopper_numbers most)
{
    const size_t n = most.n < RUSHHOPPER_MOST_REPLICAS ? most.n : RUSHHOPPER_MOST_REPLICAS;
    const size_t slots = most.slots < RUSHHOPPER_MOST_SLOTS ? most.slots : RUSHHOPPER_MOST_SLOTS;

    return RUSHHOPPER_REPORT_LENGTH(file_length, n, slots);
}

/* The archive takes up to so many entries at once, and no run has a longer log. It keeps 8 bytes of each. */
#define RUSHHOPPER_MOST_ENTRIES 1024
#define RUSHHOPPER_STORED_LENGTH(entries) (8 * (size_t)(entries))

#define RUSHHOPPER_MEMORIES \
    uint16_t *words, size_t words_length, \
    uint64_t *orders, size_t orders_length, \
    uint8_t *ballots, size_t ballots_length

/* Fills a strip with the coins of all slots and phases, from entry start (0 to 510) of the coin table. Refusals 1, 2. */
size_t rushhopper_fill_strip(size_t slots, size_t phases, size_t start, uint8_t *strip, size_t strip_length);

/* Starts a run: all replicas running and idle at slot 0, their counts 0, the part of each memory that the run needs cleared, the
 * strip filled from start. A phase limit of 0 stands for 16. Refusals 1, 2. */
struct rushhopper_opened rushhopper_open(struct rushhopper_numbers numbers, size_t start,
                                         RUSHHOPPER_MEMORIES, uint8_t *strip, size_t strip_length);

/* The steps. numbers are those of the opened run. Each refuses with 3, 2, 4, 5, in this order, then with its own. */

/* The tag becomes known, if it wasn't, and the replica holds it. Refusals 6, 7, 8. */
size_t rushhopper_submit(struct rushhopper_numbers numbers, struct rushhopper_replica who, uint64_t tag,
                         RUSHHOPPER_MEMORIES, const uint8_t *strip, size_t strip_length);

/* A known tag is held by one more replica. Refusals 6, 9, 7. */
size_t rushhopper_relay(struct rushhopper_numbers numbers, struct rushhopper_replica who, uint64_t tag,
                        RUSHHOPPER_MEMORIES, const uint8_t *strip, size_t strip_length);

/* An idle replica proposes its first-ranked pending tag (RUSHHOPPER_URGENT) and enters the exchange. Refusals 10, 11, 12. */
size_t rushhopper_begin(struct rushhopper_numbers numbers, struct rushhopper_replica who,
                        RUSHHOPPER_MEMORIES, const uint8_t *strip, size_t strip_length);

/* The receiver hears a message that the sender has sent; of any slot and phase, and from a crashed sender too. sort is an
 * enum rushhopper_sort; the phase of a proposal or notice is 0. A notice is sent by closing its slot, in whatever way, and an
 * empty slot has one too. Refusals 16, 17, 18. */
size_t rushhopper_hear(struct rushhopper_numbers numbers, struct rushhopper_replica receiver,
                       struct rushhopper_replica sender, size_t sort, struct rushhopper_slot slot,
                       struct rushhopper_phase phase, RUSHHOPPER_MEMORIES, const uint8_t *strip, size_t strip_length);

/* A replica that has heard a notice of its current slot, idle or in any round, closes the slot with that entry; of several
 * notices the lowest sender's counts. Else one step by the round that it is in: it sends the next message, closes the slot or
 * enters the find round. Refusals 13, 14, 15. */
size_t rushhopper_advance(struct rushhopper_numbers numbers, struct rushhopper_replica who,
                          RUSHHOPPER_MEMORIES, const uint8_t *strip, size_t strip_length);

/* Advances until a slot is closed or the next advance is refused; refused if the first is. A close by a notice is one of the
 * advances, and the only one of an idle replica. */
struct rushhopper_ran rushhopper_run_on(struct rushhopper_numbers numbers, struct rushhopper_replica who,
                                        RUSHHOPPER_MEMORIES, const uint8_t *strip, size_t strip_length);

/* The replica stops for good; its counts stay. Lent the one record of the replica that it names; one whose number is n or more
 * may be lent any record. Refusals 3, 4, 5. */
size_t rushhopper_crash(struct rushhopper_numbers numbers, struct rushhopper_replica who, struct rushhopper_record *record);

/* Takes all running replicas through their next slot, with no hearing named. They must be at least a quorum and all idle at
 * the same slot, and nobody, running or crashed, may have sent a message of that slot; a notice is one, too.
 *
 * The first-ranked tag that is pending at any of them is relayed to those that do not hold it, and each begins. In the
 * exchange, and in the state and vote rounds of phase 1, each then hears each other, and then each advances; all in the order
 * of their numbers. No notice is heard. In a run from an accepted opening this closes the slot with that tag at all L of them,
 * in exactly 3 * L * L + L steps besides at most L - 1 relays: 30 steps for three. In memories that no run leaves, a step that
 * is refused on the way is passed over and not counted, and the slot may stay open.
 *
 * Refusals 3, 2, 23, 22, 11, 12, in this order: no replica is named, so there is no 4 or 5. */
struct rushhopper_conducted rushhopper_conduct(struct rushhopper_numbers numbers,
                                               RUSHHOPPER_MEMORIES, const uint8_t *strip, size_t strip_length);

/* Plays a step file on memories for at most the numbers `most` and writes its report, as the rehearsal program does. An
 * opening of more replicas, slots, phases or room than `most` gets refusal 2, and so does one that the memories or the strip
 * are too short for; most.f is not looked at. A file may have any length: the limit of 65,536 bytes is the rehearsal
 * program's. Openings and hears may be written in either kind of record, 0 and 4 with one byte for the slots or the slot, 8 and
 * 9 with two: each gives the same step in both.
 *
 * The report is written from the front of the buffer; what does not fit is left out, and the rest of the buffer is not
 * touched. It is whole if `written` is below report_length. If they are equal it may be cut, and a buffer of
 * rushhopper_report_length(file_length, most) is always long enough to tell. */
struct rushhopper_played rushhopper_play(struct rushhopper_numbers most, const uint8_t *file, size_t file_length,
                                         uint8_t *report, size_t report_length,
                                         RUSHHOPPER_MEMORIES, uint8_t *strip, size_t strip_length);

/* Logs laid out for the archive, and back. The archive keeps a log by byte plane: the highest byte of every entry first, then
 * the next, to the eighth. Of k entries, byte p of entry i, with p 0 for the highest, is stored at p * k + i. Any numbers will
 * do as entries, and any bytes as stored ones; each call undoes the other. Output past the result is not touched. */

/* From entries to planes. Refusal 1 above RUSHHOPPER_MOST_ENTRIES, then 2 if stored_length is below
 * RUSHHOPPER_STORED_LENGTH(entries_length). */
size_t rushhopper_to_planes(const uint64_t *entries, size_t entries_length, uint8_t *stored, size_t stored_length);

/* From planes to entries, an eighth as many. Refusal 1 above RUSHHOPPER_STORED_LENGTH(RUSHHOPPER_MOST_ENTRIES) bytes, then 24
 * if they are no multiple of 8, then 2 if entries_length is below an eighth of stored_length. */
size_t rushhopper_to_entries(const uint8_t *stored, size_t stored_length, uint64_t *entries, size_t entries_length);

/* ---- Part 2: the same calls on memories kept in one struct ---- */

/* numbers are those of the run in the memories. All 0 before an opening is accepted, so that every step gets refusal 3. */
struct rushhopper_memories {
    struct rushhopper_numbers numbers;
    uint16_t *words;
    size_t words_length;
    uint64_t *orders;
    size_t orders_length;
    uint8_t *ballots;
    size_t ballots_length;
    uint8_t *strip;
    size_t strip_length;
};

/* Defines static memories for runs of at most these numbers (constants), and the struct `name` over them. */
#define RUSHHOPPER_DEFINE_MEMORIES(name, n, slots, phases, room) \
    static uint16_t name##_words[RUSHHOPPER_WORDS_LENGTH(n, slots, phases, room)]; \
    static uint64_t name##_orders[RUSHHOPPER_ORDERS_LENGTH(n, slots, room)]; \
    static uint8_t name##_ballots[RUSHHOPPER_BALLOTS_LENGTH(n, slots, phases)]; \
    static uint8_t name##_strip[RUSHHOPPER_STRIP_LENGTH(slots, phases)]; \
    static struct rushhopper_memories name = { \
        {0, 0, 0, 0, 0}, \
        name##_words, RUSHHOPPER_WORDS_LENGTH(n, slots, phases, room), \
        name##_orders, RUSHHOPPER_ORDERS_LENGTH(n, slots, room), \
        name##_ballots, RUSHHOPPER_BALLOTS_LENGTH(n, slots, phases), \
        name##_strip, RUSHHOPPER_STRIP_LENGTH(slots, phases) \
    }

/* The memories and the strip as arguments of a call. */
#define RUSHHOPPER_LENT(rack) \
    (rack)->words, (rack)->words_length, (rack)->orders, (rack)->orders_length, \
    (rack)->ballots, (rack)->ballots_length, (rack)->strip, (rack)->strip_length

/* Makes the strip of the run anew, from another start. */
static inline size_t rushhopper_fill_strip_in(struct rushhopper_memories *rack, size_t start)
{
    return rushhopper_fill_strip(rack->numbers.slots, rack->numbers.phases, start, rack->strip, rack->strip_length);
}

/* A refused opening leaves the run that was there, and its numbers. RUSHHOPPER_OTHER_LAYOUT comes before any other refusal. */
static inline size_t rushhopper_open_in(struct rushhopper_memories *rack, struct rushhopper_numbers plan, size_t start)
{
    struct rushhopper_opened opened;

    if (rushhopper_layout() != RUSHHOPPER_LAYOUT)
        return RUSHHOPPER_OTHER_LAYOUT;
    opened = rushhopper_open(plan, start, RUSHHOPPER_LENT(rack));
    if (opened.refusal == RUSHHOPPER_ACCEPTED)
        rack->numbers = opened.numbers;
    return opened.refusal;
}

static inline size_t rushhopper_submit_in(struct rushhopper_memories *rack, struct rushhopper_replica who, uint64_t tag)
{
    return rushhopper_submit(rack->numbers, who, tag, RUSHHOPPER_LENT(rack));
}

static inline size_t rushhopper_relay_in(struct rushhopper_memories *rack, struct rushhopper_replica who, uint64_t tag)
{
    return rushhopper_relay(rack->numbers, who, tag, RUSHHOPPER_LENT(rack));
}

static inline size_t rushhopper_begin_in(struct rushhopper_memories *rack, struct rushhopper_replica who)
{
    return rushhopper_begin(rack->numbers, who, RUSHHOPPER_LENT(rack));
}

static inline size_t rushhopper_hear_in(struct rushhopper_memories *rack, struct rushhopper_replica receiver,
                                        struct rushhopper_message message)
{
    return rushhopper_hear(rack->numbers, receiver, message.sender, message.sort, message.slot, message.phase,
                           RUSHHOPPER_LENT(rack));
}

static inline size_t rushhopper_advance_in(struct rushhopper_memories *rack, struct rushhopper_replica who)
{
    return rushhopper_advance(rack->numbers, who, RUSHHOPPER_LENT(rack));
}

static inline struct rushhopper_ran rushhopper_run_on_in(struct rushhopper_memories *rack, struct rushhopper_replica who)
{
    return rushhopper_run_on(rack->numbers, who, RUSHHOPPER_LENT(rack));
}

static inline struct rushhopper_conducted rushhopper_conduct_in(struct rushhopper_memories *rack)
{
    return rushhopper_conduct(rack->numbers, RUSHHOPPER_LENT(rack));
}

/* How many tags are known. */
static inline size_t rushhopper_known_of(const struct rushhopper_memories *rack)
{
    return rack->words_length == 0 ? 0 : rack->words[0];
}

/* Whether a replica is of the run and its record in the memory: all its words, behind the header. */
static inline int rushhopper_has_record(const struct rushhopper_memories *rack, struct rushhopper_replica who)
{
    return who.number < rack->numbers.n && rack->words_length >= RUSHHOPPER_HEADER_LENGTH
        && who.number < (rack->words_length - RUSHHOPPER_HEADER_LENGTH) / RUSHHOPPER_RECORD_LENGTH;
}

/* Where a replica's record starts in the words: behind the header and the records of those before it. */
static inline size_t rushhopper_record_start(struct rushhopper_replica who)
{
    return RUSHHOPPER_HEADER_LENGTH + RUSHHOPPER_RECORD_LENGTH * who.number;
}

/* The record of a replica, with its counts; a blank one where there is none. */
static inline struct rushhopper_record rushhopper_record_of(const struct rushhopper_memories *rack,
                                                            struct rushhopper_replica who)
{
    struct rushhopper_record record = {0, 0, 0, 0, 0, 0};

    if (rushhopper_has_record(rack, who)) {
        const uint16_t *words = rack->words + rushhopper_record_start(who);
        record.crashed = words[0];
        record.round = words[1];
        record.slot = words[2];
        record.phase = words[3];
        record.empty = words[4];
        record.fast = words[5];
    }
    return record;
}

/* Where a replica's entries start in the orders: behind the known tags, the proposals and the entries of those before it. */
static inline size_t rushhopper_log_start(const struct rushhopper_memories *rack, struct rushhopper_replica who)
{
    return rack->numbers.room + rack->numbers.slots * (rack->numbers.n + who.number);
}

/* The entry of a replica's log, 0 for an empty slot. Counts for the closed slots, those below its record's slot; 0 where the
 * memory has no such entry. */
static inline uint64_t rushhopper_entry_of(const struct rushhopper_memories *rack, struct rushhopper_replica who,
                                           struct rushhopper_slot slot)
{
    const size_t cell = rushhopper_log_start(rack, who) + slot.index;
    const int in_run = who.number < rack->numbers.n && slot.index < rack->numbers.slots;

    return in_run && cell < rack->orders_length ? rack->orders[cell] : 0;
}

/* A log where it stands in the memory. It stays so until the next opening; what is closed later stands behind it. */
struct rushhopper_log { const uint64_t *entries; size_t length; };

/* The log of a replica: the entries of the slots that it has closed, 0 for an empty one. Of length 0 where the memory does not
 * have it. */
static inline struct rushhopper_log rushhopper_log_of(const struct rushhopper_memories *rack, struct rushhopper_replica who)
{
    const size_t closed = rushhopper_record_of(rack, who).slot, start = rushhopper_log_start(rack, who);
    struct rushhopper_log log = {rack->orders, 0};

    if (closed <= rack->numbers.slots && start <= rack->orders_length && closed <= rack->orders_length - start) {
        log.entries += start;
        log.length = closed;
    }
    return log;
}

/* Stores the log of a replica, running or crashed, for the archive, in the first RUSHHOPPER_STORED_LENGTH(log.length) bytes.
 * Refusal 4 for a replica that is not of the run, as from a step: it has no log, which is not an empty one. Then 3 if its
 * record has more closed slots than the run has slots, 2 if record or log are not in the memory, and those of
 * rushhopper_to_planes. */
static inline size_t rushhopper_store_log_in(const struct rushhopper_memories *rack, struct rushhopper_replica who,
                                             uint8_t *stored, size_t stored_length)
{
    const size_t closed = rushhopper_record_of(rack, who).slot;
    const struct rushhopper_log log = rushhopper_log_of(rack, who);

    if (who.number >= rack->numbers.n)
        return RUSHHOPPER_NO_SUCH_REPLICA;
    if (closed > rack->numbers.slots)
        return RUSHHOPPER_SPOILED_RECORD;
    if (!rushhopper_has_record(rack, who) || log.length < closed)
        return RUSHHOPPER_SHORT_TABLE;
    return rushhopper_to_planes(log.entries, log.length, stored, stored_length);
}

/* The record goes to the library and back, since a pointer into the words is not one to a record. A replica of the run whose
 * record is not in the memory gets refusal 2: there is nothing to mark. */
static inline size_t rushhopper_crash_in(struct rushhopper_memories *rack, struct rushhopper_replica who)
{
    struct rushhopper_record record = rushhopper_record_of(rack, who);
    const size_t refusal = rushhopper_crash(rack->numbers, who, &record);

    if (refusal != RUSHHOPPER_ACCEPTED)
        return refusal;
    if (!rushhopper_has_record(rack, who))
        return RUSHHOPPER_SHORT_TABLE;
    rack->words[rushhopper_record_start(who)] = record.crashed;
    return RUSHHOPPER_ACCEPTED;
}

/* A file that opens no run leaves the one that was there, and its numbers. With the header of another layout nothing is played:
 * no run is opened, and no report written. */
static inline struct rushhopper_played rushhopper_play_in(struct rushhopper_memories *rack, struct rushhopper_numbers most,
                                                          const uint8_t *file, size_t file_length,
                                                          uint8_t *report, size_t report_length)
{
    struct rushhopper_played played = {0, 0, {0, 0, 0, 0, 0}};

    if (rushhopper_layout() != RUSHHOPPER_LAYOUT)
        return played;
    played = rushhopper_play(most, file, file_length, report, report_length, RUSHHOPPER_LENT(rack));
    if (played.opened)
        rack->numbers = played.numbers;
    return played;
}

/* The documents' word for a refusal, and ours for that of another layout. */
static inline const char *rushhopper_word(size_t refusal)
{
    static const char *const words[] = {
        "accepted", "bad plan", "short table", "spoiled record", "no such bench", "dark", "blank tag", "held",
        "tag room full", "unknown tag", "busy", "log full", "nothing pending", "idle", "too few heard",
        "phases used up", "no such message", "unsent", "heard", "unknown kind", "cut record", "out of place",
        "not level", "too few lit", "odd length"
    };

    if (refusal == RUSHHOPPER_OTHER_LAYOUT)
        return "other layout";
    return refusal < sizeof words / sizeof words[0] ? words[refusal] : "no such refusal";
}

#ifdef __cplusplus
}
#endif

#endif
