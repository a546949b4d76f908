/* A wasted slot on the controllers' cards. Each of three controllers proposes its own order in slot 0: none has a majority, and
 * controllers 0 and 1 close the slot as empty in phase 1, controller 2 by a notice. Then the conductor relays one order after
 * the other and closes a slot with each. Writes what was closed, and then every card: slots closed, how many of them are empty,
 * and of how many the controller reached the outcome in phase 1 itself.
 *
 *     gcc -std=c99 -Wall -Wextra -pedantic -I include examples/c/counts.c FOLDER/librushhopper.a -o counts
 */
#include <inttypes.h>
#include <stdio.h>

#include "rushhopper.h"

/* 3 replicas, 4 slots, room for 4 tags; a phase limit of 0 stands for 16. */
RUSHHOPPER_DEFINE_MEMORIES(rack, 3, 4, 0, 4);

static const struct rushhopper_replica zero = {0}, one = {1}, two = {2};

static int open_run(void)
{
    const struct rushhopper_numbers plan = {3, 1, 4, 0, 4};

    return rushhopper_open_in(&rack, plan, 0) == RUSHHOPPER_ACCEPTED;
}

/* Order 5 at controller 0, 7 at controller 1, 9 at controller 2. */
static int propose(void)
{
    struct rushhopper_replica who;

    for (who.number = 0; who.number < 3; who.number++)
        if (rushhopper_submit_in(&rack, who, 5 + 2 * who.number) != RUSHHOPPER_ACCEPTED
            || rushhopper_begin_in(&rack, who) != RUSHHOPPER_ACCEPTED)
            return 0;
    return 1;
}

/* Controllers 0 and 1 hear each other in slot 0, and advance. */
static int meet(enum rushhopper_sort sort, size_t phase)
{
    const struct rushhopper_message of_zero = {sort, {0}, {phase}, zero}, of_one = {sort, {0}, {phase}, one};

    return rushhopper_hear_in(&rack, zero, of_one) == RUSHHOPPER_ACCEPTED
        && rushhopper_hear_in(&rack, one, of_zero) == RUSHHOPPER_ACCEPTED
        && rushhopper_advance_in(&rack, zero) == RUSHHOPPER_ACCEPTED
        && rushhopper_advance_in(&rack, one) == RUSHHOPPER_ACCEPTED;
}

static int waste(void)
{
    const struct rushhopper_message notice = {RUSHHOPPER_SORT_NOTICE, {0}, {0}, zero};

    return meet(RUSHHOPPER_SORT_PROPOSAL, 0) && meet(RUSHHOPPER_SORT_STATE, 1) && meet(RUSHHOPPER_SORT_VOTE, 1)
        && rushhopper_hear_in(&rack, two, notice) == RUSHHOPPER_ACCEPTED
        && rushhopper_advance_in(&rack, two) == RUSHHOPPER_ACCEPTED;
}

/* The entry that controller 0 has for the slot it closed last. */
static void print_last(void)
{
    const struct rushhopper_log log = rushhopper_log_of(&rack, zero);
    const uint64_t entry = log.entries[log.length - 1];

    printf("slot %zu: ", log.length - 1);
    if (entry == 0)
        printf("empty\n");
    else
        printf("order %" PRIu64 "\n", entry);
}

static void print_cards(void)
{
    struct rushhopper_replica who;

    for (who.number = 0; who.number < rack.numbers.n; who.number++) {
        const struct rushhopper_record card = rushhopper_record_of(&rack, who);
        printf("controller %zu: %u closed, %u empty, %u in phase 1\n", who.number, (unsigned)card.slot, (unsigned)card.empty,
               (unsigned)card.fast);
    }
}

int main(void)
{
    if (!open_run() || !propose() || !waste())
        return 1;
    print_last();
    print_cards();
    while (rushhopper_conduct_in(&rack).refusal == RUSHHOPPER_ACCEPTED)
        print_last();
    print_cards();
    return 0;
}
