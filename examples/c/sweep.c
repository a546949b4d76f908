/* A sweep of 300 orders by the conductor alone: each of three controllers is handed every third order. Writes how many steps it
 * took, what the conductor says once all slots are closed, and some entries of every log.
 *
 *     gcc -std=c99 -Wall -Wextra -pedantic -I include examples/c/sweep.c FOLDER/librushhopper.a -o sweep
 */
#include <inttypes.h>
#include <stdio.h>

#include "rushhopper.h"

#define ORDERS 300

/* 3 replicas, a slot and room for each order; a phase limit of 0 stands for 16. */
RUSHHOPPER_DEFINE_MEMORIES(rack, 3, ORDERS, 0, ORDERS);

/* Nine o'clock: a tag is its time times 2^32 plus the order's number. */
static const uint64_t nine = (uint64_t)900 << 32;

static int open_run(void)
{
    const struct rushhopper_numbers plan = {3, 1, ORDERS, 0, ORDERS};

    return rushhopper_open_in(&rack, plan, 0) == RUSHHOPPER_ACCEPTED;
}

static int hand_in(void)
{
    size_t number;

    for (number = 1; number <= ORDERS; number++) {
        const struct rushhopper_replica who = {number % 3};
        if (rushhopper_submit_in(&rack, who, nine + number) != RUSHHOPPER_ACCEPTED)
            return 0;
    }
    return 1;
}

/* Slot after slot, until the conductor is refused. */
static void sweep(void)
{
    size_t slots = 0, steps = 0, relays = 0;
    struct rushhopper_conducted conducted = rushhopper_conduct_in(&rack);

    while (conducted.refusal == RUSHHOPPER_ACCEPTED) {
        slots++;
        steps += conducted.steps;
        relays += conducted.relays;
        conducted = rushhopper_conduct_in(&rack);
    }
    printf("%zu slots closed in %zu steps and %zu relays\n", slots, steps, relays);
    printf("then refused, %zu: %s\n", conducted.refusal, rushhopper_word(conducted.refusal));
}

/* The first slot, those on both sides of a byte's end, and the last. */
static void print_log(struct rushhopper_replica who)
{
    const struct rushhopper_slot shown[] = {{0}, {255}, {256}, {ORDERS - 1}};
    size_t i;

    printf("controller %zu, %u slots closed:", who.number, (unsigned)rushhopper_record_of(&rack, who).slot);
    for (i = 0; i < sizeof shown / sizeof shown[0]; i++) {
        const uint64_t tag = rushhopper_entry_of(&rack, who, shown[i]);
        printf("%s %zu has %" PRIu64 ":%" PRIu64, i == 0 ? "" : ",", shown[i].index, tag >> 32, tag & UINT32_MAX);
    }
    printf("\n");
}

int main(void)
{
    struct rushhopper_replica who;

    if (!open_run() || !hand_in())
        return 1;
    sweep();
    for (who.number = 0; who.number < rack.numbers.n; who.number++)
        print_log(who);
    return 0;
}
