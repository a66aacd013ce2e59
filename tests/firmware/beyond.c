/*
 * beyond TABLE: plays the table of beyond.sdv beside answers that no card gives: each R1 tells of the state prg. The run has to
 * stop where the next command is one more than the header says, in a first run and in a second one with the same state. With a
 * greater number in the header it has to ask for more.
 */
#ifdef PROVED
#include "../../firmware/sdv_player.h"
#else
#include "../../firmware/sdv_step.h"
#endif
#include "table.h"

/* Plays to the end, and says how many commands were asked for. Each is asked for twice, which counts once. */
static uint64_t play(const uint32_t *table, size_t words, struct sdv_state *state, uint32_t *end)
{
    struct sdv_event event;
    uint64_t commands = 0;

    if (!sdv_start(table, words, state))
        fail("no table", "");
    while ((*end = sdv_next(table, words, state, &event)) == SDV_SEND) {
        commands++;
        if (sdv_next(table, words, state, &event) != SDV_SEND)
            fail("asked again, the player says something else", "");
        if (!sdv_answer(table, words, state, event.expect ? SDV_REPLY : SDV_SENT, 0xE00, NULL))
            fail("an answer was refused", "");
    }
    return commands;
}

int main(int count, char **arguments)
{
    struct sdv_state state;
    uint32_t *table, end;
    uint64_t most;
    size_t words;
    int run;

    if (count != 2)
        fail("usage: beyond TABLE", "");
    table = load_table(arguments[1], &words);
    if (words < 8)
        fail("no table", "");
    most = table[6] | (uint64_t)table[7] << 32;
    for (run = 0; run < 2; run++)
        if (play(table, words, &state, &end) != most || end != SDV_STOPPED)
            fail("the run did not stop at the number of commands", "");
    table[6] = table[7] = 0xFFFFFFFFu;
    if (play(table, words, &state, &end) <= most || end != SDV_FAULT)
        fail("the run had no more commands without the number", "");
    free(table);
    return 0;
}
