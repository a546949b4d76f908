/* Tries what a program is told that was built with the header of another layout: tests/run hands it such a header, with another
 * RUSHHOPPER_LAYOUT, and the library as it is. Writes each expectation that fails, and ends with 1 if any did.
 *
 *     gcc -std=c99 -Wall -Wextra -pedantic -I FOLDER_OF_THAT_HEADER tests/header/other_layout.c FOLDER/librushhopper.a
 */
#include <string.h>

#include "expect.h"
#include "rushhopper.h"

RUSHHOPPER_DEFINE_MEMORIES(rack, 1, 1, 1, 1);

static const struct rushhopper_numbers alone = {1, 0, 1, 1, 1};
static const struct rushhopper_replica zero = {0};

static void fill_memories(void)
{
    memset(rack_words, UNTOUCHED, sizeof rack_words);
    memset(rack_orders, UNTOUCHED, sizeof rack_orders);
    memset(rack_ballots, UNTOUCHED, sizeof rack_ballots);
    memset(rack_strip, UNTOUCHED, sizeof rack_strip);
}

/* No run is there, either: a step would get refusal 3. */
static void expect_untouched_memories(void)
{
    EXPECT(is_untouched(rack_words, sizeof rack_words) && is_untouched(rack_orders, sizeof rack_orders));
    EXPECT(is_untouched(rack_ballots, sizeof rack_ballots) && is_untouched(rack_strip, sizeof rack_strip));
    EXPECT(rack.numbers.n == 0 && rushhopper_begin_in(&rack, zero) == RUSHHOPPER_SPOILED_RECORD);
}

/* Also where the numbers are beyond the limits, or a memory is too short. */
static void an_opening_says_so(void)
{
    const struct rushhopper_numbers bad = {0, 0, 0, 0, 0};

    EXPECT(rushhopper_open_in(&rack, alone, 0) == RUSHHOPPER_OTHER_LAYOUT);
    EXPECT(rushhopper_open_in(&rack, bad, 0) == RUSHHOPPER_OTHER_LAYOUT);
    rack.words_length = 0;
    EXPECT(rushhopper_open_in(&rack, alone, 0) == RUSHHOPPER_OTHER_LAYOUT);
    rack.words_length = sizeof rack_words / sizeof rack_words[0];
}

/* The file opens a run that the memories are long enough for. */
static void a_file_is_not_played(void)
{
    static const uint8_t file[] = {0, 1, 0, 1, 1, 1, 0, 0, 0};
    uint8_t report[64];
    struct rushhopper_played played;

    memset(report, UNTOUCHED, sizeof report);
    played = rushhopper_play_in(&rack, alone, file, sizeof file, report, sizeof report);
    EXPECT(played.written == 0 && played.opened == 0 && played.numbers.n == 0);
    EXPECT(is_untouched(report, sizeof report));
}

int main(void)
{
    EXPECT(rushhopper_layout() != RUSHHOPPER_LAYOUT);
    fill_memories();
    an_opening_says_so();
    expect_untouched_memories();
    a_file_is_not_played();
    expect_untouched_memories();
    return failed;
}
