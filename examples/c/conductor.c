/* Three slots by the conductor alone: five controllers of which one goes dark, and orders handed in at different ones, one of
 * them urgent. Writes an account of each slot, every log, and what the conductor says once nothing is pending.
 *
 *     gcc -std=c99 -Wall -Wextra -pedantic -I include examples/c/conductor.c FOLDER/librushhopper.a -o conductor
 */
#include <inttypes.h>
#include <stdio.h>

#include "rushhopper.h"

/* 5 replicas, 4 slots, room for 8 tags; a phase limit of 0 stands for 16. */
RUSHHOPPER_DEFINE_MEMORIES(rack, 5, 4, 0, 8);

static const struct rushhopper_replica zero = {0}, one = {1}, two = {2}, three = {3}, four = {4};

static int open_run(void)
{
    const struct rushhopper_numbers plan = {5, 2, 4, 0, 8};

    return rushhopper_open_in(&rack, plan, 0) == RUSHHOPPER_ACCEPTED;
}

/* Order 9 is handed in twice, and order 12 is urgent. Controller 2 goes dark before anyone else has its order 3. */
static int hand_in(void)
{
    return rushhopper_submit_in(&rack, zero, 9) == RUSHHOPPER_ACCEPTED
        && rushhopper_submit_in(&rack, four, 9) == RUSHHOPPER_ACCEPTED
        && rushhopper_submit_in(&rack, one, RUSHHOPPER_URGENT + 12) == RUSHHOPPER_ACCEPTED
        && rushhopper_submit_in(&rack, three, 7) == RUSHHOPPER_ACCEPTED
        && rushhopper_submit_in(&rack, two, 3) == RUSHHOPPER_ACCEPTED
        && rushhopper_crash_in(&rack, two) == RUSHHOPPER_ACCEPTED;
}

/* An urgent order with a mark instead of its highest bit. */
static void print_order(uint64_t tag)
{
    printf("%s%" PRIu64, tag & RUSHHOPPER_URGENT ? "!" : "", tag & ~RUSHHOPPER_URGENT);
}

/* The slot that comes next is that of controller 0, which stays lit. */
static void conduct(void)
{
    const struct rushhopper_slot slot = {rushhopper_record_of(&rack, zero).slot};
    const struct rushhopper_conducted conducted = rushhopper_conduct_in(&rack);

    printf("slot %zu: ", slot.index);
    if (conducted.refusal != RUSHHOPPER_ACCEPTED) {
        printf("refused, %zu: %s\n", conducted.refusal, rushhopper_word(conducted.refusal));
        return;
    }
    printf("order ");
    print_order(rushhopper_entry_of(&rack, zero, slot));
    printf(", %zu steps and %zu relays\n", conducted.steps, conducted.relays);
}

static void print_log(struct rushhopper_replica who)
{
    const struct rushhopper_record record = rushhopper_record_of(&rack, who);
    struct rushhopper_slot slot;

    printf("controller %zu %s:", who.number, record.crashed ? "dark" : "lit");
    for (slot.index = 0; slot.index < record.slot; slot.index++) {
        printf(" ");
        print_order(rushhopper_entry_of(&rack, who, slot));
    }
    printf("\n");
}

int main(void)
{
    struct rushhopper_replica who;
    int slots;

    if (!open_run() || !hand_in())
        return 1;
    for (slots = 0; slots < 3; slots++)
        conduct();
    for (who.number = 0; who.number < rack.numbers.n; who.number++)
        print_log(who);
    conduct();
    return 0;
}
