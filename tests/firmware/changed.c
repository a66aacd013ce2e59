/*
 * changed TABLE: plays a table with each of its words changed in many ways, and cut to each length, beside a partner that
 * answers anything. No run may read outside the table (build it with a sanitizer), and each has to end within the moves that
 * the table's header allows, and to ask for no more commands than it says. A damaged answer has to do what a time-out does,
 * and an answer to another event than the one that was asked for has to stop the run.
 */
#include <string.h>

#ifdef PROVED
#include "../../firmware/sdv_player.h"
#else
#include "../../firmware/sdv_step.h"
#endif
#include "table.h"

static uint32_t drawn = 1;

static uint32_t draw(uint32_t limit)
{
    drawn = drawn * 1664525u + 1013904223u;
    return (drawn >> 8) % limit;
}

/* Words that scripts look for, and any others. */
static uint32_t draw_word(uint32_t expect)
{
    static const uint32_t status[] = {0x900, 0x920, 0x120, 0x500, 0x700, 0xE00};

    if (draw(8) == 0)
        return draw(1u << 16) << 16 | draw(1u << 16);
    switch (expect) {
    case 3: return draw(2) ? 0xC0FF8080u : 0x80FF8080u;
    case 6: return 0x12340500;
    case 7: return 0x1AA;
    default: return status[draw(6)];
    }
}

static void draw_bytes(uint8_t *bytes, size_t count)
{
    static const uint8_t csd[15] = {0x40, 0, 0, 0, 0, 9};
    size_t i;

    for (i = 0; i < count; i++)
        bytes[i] = (uint8_t)(draw(4) ? (i < 15 ? csd[i] : 0) : draw(256));
}

/* A damaged answer leads where a time-out does: one that is said to be damaged, one of no kind, and an R2 without its bytes. */
static void damage(const uint32_t *table, size_t words, const struct sdv_state *state, const struct sdv_event *event)
{
    struct sdv_state lost = *state;
    struct sdv_event wanted, found;
    int taken = sdv_answer(table, words, &lost, SDV_TIMEOUT, 0, NULL);
    uint32_t reply;

    sdv_next(table, words, &lost, &wanted);
    for (reply = SDV_REPLY; reply < 6; reply++) {
        struct sdv_state damaged = *state;

        if (reply == SDV_REPLY && event->expect != 2)
            continue;
        if (sdv_answer(table, words, &damaged, reply, 0, NULL) != taken)
            fail("a damaged answer is not taken as a lost one", "");
        sdv_next(table, words, &damaged, &found);
        if (memcmp(&wanted, &found, sizeof wanted) != 0)
            fail("a damaged answer leads elsewhere than a lost one", "");
    }
}

/* The answer to another event stops the run. */
static void mistake(const uint32_t *table, size_t words, const struct sdv_state *state, const struct sdv_event *event)
{
    struct sdv_state wrong = *state;
    struct sdv_event found;
    int taken = event->what == SDV_SEND ? sdv_ended(table, words, &wrong, 1, NULL) : sdv_answer(table, words, &wrong, SDV_TIMEOUT, 0, NULL);

    if (taken || sdv_next(table, words, &wrong, &found) != SDV_STOPPED)
        fail("the answer to another event was taken", "");
}

static int answer(const uint32_t *table, size_t words, struct sdv_state *state, const struct sdv_event *event)
{
    uint8_t bytes[512];
    uint32_t reply = event->expect ? SDV_REPLY : SDV_SENT;

    draw_bytes(bytes, sizeof bytes);
    if (event->what == SDV_SEND) {
        if (draw(16) == 0)
            reply = event->expect ? SDV_TIMEOUT : SDV_SENT;
        if (draw(256) == 0)
            reply = draw(6);
        return sdv_answer(table, words, state, reply, draw_word(event->expect), draw(64) ? bytes : NULL);
    }
    return sdv_ended(table, words, state, draw(8) != 0, draw(16) ? bytes : NULL);
}

static void play(const uint32_t *table, size_t words)
{
    struct sdv_state state;
    struct sdv_event event;
    uint64_t moves = words < 8 ? 0 : table[4] | (uint64_t)table[5] << 32;
    uint64_t most = words < 8 ? 0 : table[6] | (uint64_t)table[7] << 32;
    uint64_t events = 0, commands = 0;
    uint32_t what;

    sdv_start(table, words, &state);
    while ((what = sdv_next(table, words, &state, &event)) < SDV_DONE) {
        if (what < SDV_SEND || event.expect > 7 || event.lines > 8 || event.point >= words)
            fail("no event:", "");
        if (++events > moves)
            fail("a run has more events than moves", "");
        if (what == SDV_SEND && ++commands > most)
            fail("a run has more commands than the header says", "");
        if (what == SDV_SEND)
            damage(table, words, &state, &event);
        mistake(table, words, &state, &event);
        if (!answer(table, words, &state, &event) && sdv_next(table, words, &state, &event) != SDV_STOPPED)
            fail("a run goes on behind a refused answer", "");
    }
    if (what > SDV_STOPPED || (what == SDV_FAULT && event.count > sizeof event.name))
        fail("no end:", "");
    /* behind the end nothing is taken */
    if (sdv_answer(table, words, &state, SDV_SENT, 0, NULL) || sdv_ended(table, words, &state, 1, NULL))
        fail("an answer was taken behind the end", "");
}

static uint32_t changed_word(uint32_t word, uint32_t way)
{
    switch (way) {
    case 32: return 0;
    case 33: return 0xFFFFFFFFu;
    case 34: return word + 1;
    case 35: return word - 1;
    case 36: return draw(1u << 16) << 16 | draw(1u << 16);
    default: return word ^ 1u << way;
    }
}

int main(int count, char **arguments)
{
    uint32_t *table, *cut;
    size_t words, i;
    uint32_t way;

    if (count != 2)
        fail("usage: changed TABLE", "");
    table = load_table(arguments[1], &words);
    for (i = 0; i < words; i++)
        for (way = 0; way < 37; way++) {
            uint32_t word = table[i];

            table[i] = changed_word(word, way);
            play(table, words);
            table[i] = word;
        }
    for (i = 0; i < words; i++) {
        cut = malloc(i ? 4 * i : 1);
        if (!cut)
            fail("no memory for", arguments[1]);
        memcpy(cut, table, 4 * i);
        play(cut, i);
        /* with a header that says so */
        if (i > 2)
            cut[2] = (cut[2] & 0xFFFF) | (uint32_t)i << 16;
        play(cut, i);
        free(cut);
    }
    free(table);
    return 0;
}
