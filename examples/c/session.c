/* Document 01's worked session through the library's calls. Writes what the rehearsal program writes of it.
 *
 *     gcc -std=c99 -Wall -Wextra -pedantic -I include examples/c/session.c FOLDER/librushhopper.a -o session
 */
#include <inttypes.h>
#include <stdio.h>

#include "rushhopper.h"

/* Exactly the memories that the session's run needs: 3 replicas, 2 slots, 4 phases, room for 4 tags. */
RUSHHOPPER_DEFINE_MEMORIES(rack, 3, 2, 4, 4);

static const struct rushhopper_replica zero = {0}, one = {1}, two = {2};

/* The calls made so far, as the report counts them: the opening is the first. */
static unsigned calls;

static void note(size_t refusal)
{
    calls++;
    if (refusal != RUSHHOPPER_ACCEPTED)
        printf("refused %u %zu\n", calls, refusal);
}

/* Everything in this session is of slot 0 and phase 1; a proposal's phase is 0. */
static size_t hear(struct rushhopper_replica receiver, struct rushhopper_replica sender, enum rushhopper_sort sort)
{
    const struct rushhopper_message message = {sort, {0}, {sort == RUSHHOPPER_SORT_PROPOSAL ? 0u : 1u}, sender};

    return rushhopper_hear_in(&rack, receiver, message);
}

static int open_run(void)
{
    const struct rushhopper_numbers plan = {3, 1, 2, 4, 4};
    const size_t refusal = rushhopper_open_in(&rack, plan, 0);

    note(refusal);
    if (refusal != RUSHHOPPER_ACCEPTED)
        return 0;
    printf("controllers %zu spare %zu\n", rack.numbers.n, rack.numbers.f);
    return 1;
}

/* Replicas 0 and 1 have order 5, replica 2 has order 9; all propose. */
static void propose(void)
{
    note(rushhopper_submit_in(&rack, zero, 5));
    note(rushhopper_relay_in(&rack, one, 5));
    note(rushhopper_submit_in(&rack, two, 9));
    note(rushhopper_begin_in(&rack, zero));
    note(rushhopper_begin_in(&rack, one));
    note(rushhopper_begin_in(&rack, two));
}

/* Replicas 0 and 1 hear each other and advance. */
static void exchange_and_vote(void)
{
    const enum rushhopper_sort sorts[] = {RUSHHOPPER_SORT_PROPOSAL, RUSHHOPPER_SORT_STATE};
    size_t i;

    for (i = 0; i < sizeof sorts / sizeof sorts[0]; i++) {
        note(hear(zero, one, sorts[i]));
        note(rushhopper_advance_in(&rack, zero));
        note(hear(one, zero, sorts[i]));
        note(rushhopper_advance_in(&rack, one));
    }
}

/* Replica 0 closes the slot, and is idle at its second advance. Replica 2 has heard no other proposal, and the crashed
 * replica's vote was heard before. */
static void close_slot(void)
{
    note(hear(zero, one, RUSHHOPPER_SORT_VOTE));
    note(rushhopper_advance_in(&rack, zero));
    note(rushhopper_advance_in(&rack, zero));
    note(hear(two, zero, RUSHHOPPER_SORT_VOTE));
    note(rushhopper_advance_in(&rack, two));
    note(rushhopper_crash_in(&rack, one));
    note(hear(zero, one, RUSHHOPPER_SORT_VOTE));
}

static void print_bench(struct rushhopper_replica who)
{
    const struct rushhopper_record record = rushhopper_record_of(&rack, who);
    struct rushhopper_slot slot;

    printf("bench %zu %s %u", who.number, record.crashed ? "dark" : "lit", (unsigned)record.slot);
    for (slot.index = 0; slot.index < record.slot; slot.index++) {
        const uint64_t entry = rushhopper_entry_of(&rack, who, slot);
        if (entry == 0)
            printf(" -");
        else
            printf(" %" PRIu64, entry);
    }
    printf("\n");
}

int main(void)
{
    struct rushhopper_replica who;

    if (!open_run())
        return 1;
    propose();
    exchange_and_vote();
    close_slot();
    for (who.number = 0; who.number < rack.numbers.n; who.number++)
        print_bench(who);
    return 0;
}
