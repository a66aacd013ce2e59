/* Whether words are well formed as a table, as docs/TABLES.md says under "Well-formed words": the same tests as `is_table` in
 * Rattle.  It stands apart from sdv_step.c, so that a program which trusts its tables does not carry it.  It is not proved;
 * checks/firmware compares its answers with those of the player in Rattle. */
#include "sdv_step.h"

#define MAX_NUMBER ((uint64_t)1 << 40)
enum { HEADER = 8, MAX_VARIABLES = 8, MAX_FLAGS = 4, MAX_POINTS = 8191, MAX_NAME = 16 };
enum { SEND = 0, PHASE, LET, IF, FLAG, LINES, LOOP, BREAK, DONE, FAULT };

/* THE COMMAND TABLES: each command that a host of a kind can send, and what its row says of it */

enum { SD = 1, EMMC = 2, BOTH = 3 };
enum { ADDRESSED, PLAIN };                /* the argument is the host's relative card address, or another */
enum { NO_BLOCKS, ONE_BLOCK, SOME_BLOCKS }; /* the blocks that it announces */
enum { NO_RESPONSE = 0, R1 = 1, R2 = 2, R3 = 3, R6 = 6, R7 = 7 };
enum { NO_DATA, BUSY, BLOCKS_IN, BLOCKS_OUT, SCR, SD_STATUS, EXT_CSD };
enum { OWN, FROM_RCA, FROM_ADDRESS }; /* where its argument comes from */

struct line { uint8_t kinds, index, aim, blocks, response, data, source; uint32_t argument; };

static const struct line lines[] = {
    {BOTH, 0, PLAIN, NO_BLOCKS, NO_RESPONSE, NO_DATA, OWN, 0},
    {EMMC, 1, PLAIN, NO_BLOCKS, R3, NO_DATA, OWN, 0x40FF8080},
    {BOTH, 2, PLAIN, NO_BLOCKS, R2, NO_DATA, OWN, 0},
    {SD, 3, PLAIN, NO_BLOCKS, R6, NO_DATA, OWN, 0},
    {EMMC, 3, PLAIN, NO_BLOCKS, R1, NO_DATA, OWN, 0x00010000},
    {SD, 6, PLAIN, NO_BLOCKS, R1, NO_DATA, OWN, 0},
    {SD, 6, PLAIN, NO_BLOCKS, R1, NO_DATA, OWN, 2},
    {EMMC, 6, PLAIN, NO_BLOCKS, R1, BUSY, OWN, 0x03B70000},
    {EMMC, 6, PLAIN, NO_BLOCKS, R1, BUSY, OWN, 0x03B70100},
    {EMMC, 6, PLAIN, NO_BLOCKS, R1, BUSY, OWN, 0x03B70200},
    {EMMC, 6, PLAIN, NO_BLOCKS, R1, BUSY, OWN, 0x03B30000},
    {EMMC, 6, PLAIN, NO_BLOCKS, R1, BUSY, OWN, 0x03B30100},
    {EMMC, 6, PLAIN, NO_BLOCKS, R1, BUSY, OWN, 0x03B30200},
    {BOTH, 7, ADDRESSED, NO_BLOCKS, R1, BUSY, FROM_RCA, 0},
    {BOTH, 7, PLAIN, NO_BLOCKS, NO_RESPONSE, NO_DATA, OWN, 0},
    {SD, 8, PLAIN, NO_BLOCKS, R7, NO_DATA, OWN, 0x000001AA},
    {EMMC, 8, PLAIN, NO_BLOCKS, R1, EXT_CSD, OWN, 0},
    {BOTH, 9, ADDRESSED, NO_BLOCKS, R2, NO_DATA, FROM_RCA, 0},
    {BOTH, 10, ADDRESSED, NO_BLOCKS, R2, NO_DATA, FROM_RCA, 0},
    {BOTH, 12, PLAIN, NO_BLOCKS, R1, BUSY, OWN, 0},
    {BOTH, 13, ADDRESSED, NO_BLOCKS, R1, SD_STATUS, FROM_RCA, 0},
    {BOTH, 16, PLAIN, NO_BLOCKS, R1, NO_DATA, OWN, 512},
    {BOTH, 17, PLAIN, ONE_BLOCK, R1, BLOCKS_IN, FROM_ADDRESS, 0},
    {BOTH, 18, PLAIN, SOME_BLOCKS, R1, BLOCKS_IN, FROM_ADDRESS, 0},
    {EMMC, 23, PLAIN, SOME_BLOCKS, R1, NO_DATA, OWN, 0}, /* the argument is the number of blocks */
    {BOTH, 24, PLAIN, ONE_BLOCK, R1, BLOCKS_OUT, FROM_ADDRESS, 0},
    {BOTH, 25, PLAIN, SOME_BLOCKS, R1, BLOCKS_OUT, FROM_ADDRESS, 0},
    {SD, 32, PLAIN, NO_BLOCKS, R1, NO_DATA, FROM_ADDRESS, 0},
    {SD, 33, PLAIN, NO_BLOCKS, R1, NO_DATA, FROM_ADDRESS, 0},
    {EMMC, 35, PLAIN, NO_BLOCKS, R1, NO_DATA, FROM_ADDRESS, 0},
    {EMMC, 36, PLAIN, NO_BLOCKS, R1, NO_DATA, FROM_ADDRESS, 0},
    {BOTH, 38, PLAIN, NO_BLOCKS, R1, BUSY, OWN, 0},
    {EMMC, 38, PLAIN, NO_BLOCKS, R1, BUSY, OWN, 1},
    {EMMC, 38, PLAIN, NO_BLOCKS, R1, BUSY, OWN, 3},
    {SD, 41, PLAIN, NO_BLOCKS, R3, NO_DATA, OWN, 0x00FF8000},
    {SD, 41, PLAIN, NO_BLOCKS, R3, NO_DATA, OWN, 0x40FF8000},
    {SD, 51, PLAIN, NO_BLOCKS, R1, SCR, OWN, 0},
    {BOTH, 55, ADDRESSED, NO_BLOCKS, R1, NO_DATA, FROM_RCA, 0},
};

/* READING: a word behind the end is 0 */

struct table { const uint32_t *words; size_t count; uint32_t kind, variables, flags, points; };

static uint32_t word_at(const struct table *t, size_t place) { return place < t->count ? t->words[place] : 0; }

static int target_fits(const struct table *t, size_t place) { return (word_at(t, place) & 0x1FFF) <= t->points; }

static int number_fits(const struct table *t, size_t place)
{
    return (word_at(t, place) | (uint64_t)word_at(t, place + 1) << 32) <= MAX_NUMBER;
}

/* A ROW: how many words it has, NO_ROW where a part does not fit */

enum { NO_ROW = 65536 }; /* more than a table has */

static int blocks_fit(uint32_t blocks, uint32_t announced) { return announced == SOME_BLOCKS ? blocks > 0 : blocks == announced; }

/* whether the row says what the command table says */
static int is_sent_right(const struct table *t, size_t row, uint32_t small)
{
    uint32_t counts = word_at(t, row + 2), response = counts >> 16 & 7, data = counts >> 19 & 7, source = counts >> 22 & 3;

    /* other codes are read as the last one */
    response = response == 4 || response == 5 ? R7 : response;
    data = data > EXT_CSD ? EXT_CSD : data;
    source = source > FROM_ADDRESS ? FROM_ADDRESS : source;
    for (size_t i = 0; i < sizeof lines / sizeof *lines; i++) {
        const struct line *l = &lines[i];
        uint32_t argument = l->index == 23 ? counts & 0xFFFF : l->argument;

        if ((l->kinds >> t->kind & 1) && l->index == (small & 63) && l->aim == (small >> 6 & 1)
            && blocks_fit(counts & 0xFFFF, l->blocks) && argument == word_at(t, row + 1))
            return l->response == response && l->data == data && l->source == source;
    }
    return 0;
}

static int address_fits(const struct table *t, size_t row)
{
    uint32_t how = word_at(t, row + 3), position = how >> 4 & 3;

    if ((how & 3) > 1 && (how >> 2 & 3) >= t->flags)
        return 0;
    if (position != 0 && how >> 6 >= t->variables)
        return 0;
    return position == 1 || number_fits(t, row + 4);
}

static uint32_t send_size(const struct table *t, size_t row, uint32_t small)
{
    uint32_t cases = word_at(t, row + 2) >> 24, size = small >> 7 ? 6 : 3;

    if (!is_sent_right(t, row, small) || !target_fits(t, row) || (small >> 7 && !address_fits(t, row)))
        return NO_ROW;
    for (; cases; cases--, size += 2)
        if (!target_fits(t, row + size + 1))
            return NO_ROW;
    return size;
}

static uint32_t let_size(const struct table *t, size_t row, uint32_t small)
{
    uint32_t atom = small >> 4 & 7, size = 1;

    if ((small & 15) >= t->variables || (atom == 1 && (small >> 7 & 7) >= t->variables) || !target_fits(t, row))
        return NO_ROW;
    if (atom == 0) {
        if (!number_fits(t, row + size))
            return NO_ROW;
        size += 2;
    }
    if (small >> 10) {
        if (!number_fits(t, row + size))
            return NO_ROW;
        size += 2;
    }
    return size;
}

static uint32_t if_size(const struct table *t, size_t row, uint32_t small)
{
    if (!target_fits(t, row) || !target_fits(t, row + 1))
        return NO_ROW;
    if ((small & 3) == 0)
        return small >> 2 < t->flags ? 2 : NO_ROW;
    return small >> 2 < t->variables && number_fits(t, row + 2) ? 4 : NO_ROW;
}

static uint32_t row_size(const struct table *t, size_t row, uint32_t kind, uint32_t small)
{
    switch (kind) {
    case SEND: return send_size(t, row, small);
    case PHASE: return target_fits(t, row) && target_fits(t, row + 1) ? 2 : NO_ROW;
    case LET: return let_size(t, row, small);
    case IF: return if_size(t, row, small);
    case FLAG: return small >> 1 < t->flags && target_fits(t, row) ? 1 : NO_ROW;
    case LINES:
    case BREAK: return target_fits(t, row) ? 1 : NO_ROW;
    case LOOP: return (word_at(t, row + 2) & 0xFFFF) && target_fits(t, row) && target_fits(t, row + 1) ? 3 : NO_ROW;
    case DONE: return 0;
    case FAULT: return small <= MAX_NAME ? (small + 3) / 4 : NO_ROW;
    default: return NO_ROW;
    }
}

int sdv_is_table(const uint32_t *words, size_t count)
{
    struct table t = {words, count, 0, 0, 0, 0};
    uint32_t counts = word_at(&t, 1), sizes = word_at(&t, 2), point;

    if (word_at(&t, 0) != 0x54564453u || (counts & 0xFF) != 2)
        return 0;
    t.kind = counts >> 8 & 0xFF, t.variables = counts >> 16 & 0xFF, t.flags = counts >> 24, t.points = sizes & 0xFFFF;
    if (sizes >> 16 != count || HEADER + t.points > count)
        return 0;
    if (t.kind > 1 || t.variables > MAX_VARIABLES || t.flags > MAX_FLAGS || t.points > MAX_POINTS || !target_fits(&t, 3))
        return 0;
    for (point = 0; point < t.points; point++) {
        uint32_t head = word_at(&t, HEADER + point), row = head >> 16;

        if (row < HEADER + t.points || row + row_size(&t, row, head & 15, head >> 4 & 0xFFF) > count)
            return 0;
    }
    return 1;
}
