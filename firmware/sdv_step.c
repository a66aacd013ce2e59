#include "sdv_step.h"

#define MAX_NUMBER ((uint64_t)1 << 40)
#define UNREAD ((uint64_t)1 << 62) /* of a register that was not read, above each number */
enum { HEADER = 8, SEND = 0, PHASE, LET, IF, FLAG, LINES, LOOP, BREAK, DONE, FAULT };
enum { FROM_RCA = 1, FROM_ADDRESS = 2 }; /* where an argument comes from; 0: it stands in the row */
enum { NOWHERE = 0xFFFF, CSD_BLOCKS = 8, EXT_BLOCKS, EXT_BOOT }; /* numbers of registers, behind the variables */

/* the row of a point: the words from its place on */
struct row { const uint32_t *words; size_t left; uint32_t kind, small; };

static uint32_t row_word(const struct row *r, size_t i) { return i < r->left ? r->words[i] : 0; }
static uint64_t row_number(const struct row *r, size_t i) { return row_word(r, i) | (uint64_t)row_word(r, i + 1) << 32; }

/* 0 where the table has no such point */
static int row_of(const uint32_t *t, size_t n, uint32_t point, struct row *r)
{
    uint32_t head, place;
    if (n < HEADER || point >= (t[2] & 0xFFFF) || point >= n - HEADER)
        return 0;
    head = t[HEADER + point];
    place = head >> 16 < n ? head >> 16 : (uint32_t)n;
    r->words = t + place, r->left = n - place;
    r->kind = head & 15, r->small = head >> 4 & 0xFFF;
    return 1;
}

static void stop(struct sdv_state *s) { s->point = NOWHERE, s->asked = 0; }

/* goes to a target: bits 12..0 the point, 15..13 the loops left, 31..16 the turns of the loop entered, 0 for none */
static void go(struct sdv_state *s, uint32_t target)
{
    uint32_t loops = target >> 13 & 7, turns = target >> 16;
    stop(s);
    s->depth = loops < s->depth ? s->depth - loops : 0;
    if (turns && s->depth > 3)
        return;
    if (turns)
        s->turns[s->depth++] = (uint16_t)turns;
    if (s->moves)
        s->moves--, s->point = target & 0x1FFF;
}

int sdv_start(const uint32_t *t, size_t n, struct sdv_state *s)
{
    *s = (struct sdv_state){.point = NOWHERE, .lines = 1};
    s->numbers[CSD_BLOCKS] = s->numbers[EXT_BLOCKS] = s->numbers[EXT_BOOT] = UNREAD;
    if (n < HEADER || t[0] != 0x54564453u || (t[1] & 0xFF) != 2 || t[2] >> 16 != n)
        return 0;
    s->kind = (t[1] >> 8 & 0xFF) != 0;
    s->moves = t[4] | (uint64_t)t[5] << 32, s->commands = t[6] | (uint64_t)t[7] << 32;
    go(s, t[3]);
    return 1;
}

static uint32_t fault(struct sdv_event *e, const struct row *name, uint32_t length)
{
    e->count = length < 16 ? length : 16;
    for (size_t i = 0; i < e->count; i++)
        e->name[i] = (uint8_t)(row_word(name, i / 4) >> 8 * (i % 4));
    return e->what = SDV_FAULT;
}

static uint32_t number_fault(struct sdv_event *e)
{
    static const uint8_t name[6] = {'n', 'u', 'm', 'b', 'e', 'r'};
    for (e->count = 0; e->count < 6; e->count++)
        e->name[e->count] = name[e->count];
    return e->what = SDV_FAULT;
}

/* 0 where the value leaves its range, or comes from a register that was not read */
static int set_number(const struct row *r, struct sdv_state *s)
{
    uint32_t atom = r->small >> 4 & 7, change = r->small >> 10;
    uint32_t which = atom == 1 ? r->small >> 7 & 7 : atom < 4 ? atom + (CSD_BLOCKS - 2) : EXT_BOOT;
    uint64_t v = atom == 0 ? row_number(r, 1) : s->numbers[which], by = row_number(r, atom == 0 ? 3 : 1);
    if (change > 1 && v < by)
        return 0;
    v = change == 0 ? v : change == 1 ? v + by : v - by;
    if (v > MAX_NUMBER)
        return 0;
    s->numbers[r->small & 7] = v;
    return 1;
}

static uint32_t holds(const struct row *r, const struct sdv_state *s)
{
    uint32_t what = r->small & 3, which = r->small >> 2;
    if (what == 0)
        return s->flags >> (which & 31) & 1;
    return (s->numbers[which & 7] >= row_number(r, 2)) == (what == 1);
}

/* the bytes of a register, by the data code of its command */
static uint16_t register_length(uint32_t data) { return data == 4 ? 8 : data == 5 ? 64 : 512; }

/* 0 where the position leaves the range of numbers */
static uint32_t send(const struct row *r, const struct sdv_state *s, struct sdv_event *e)
{
    uint32_t w = row_word(r, 2), source = w >> 22 & 3, data = w >> 19 & 7, how = row_word(r, 3);
    uint64_t block = 0;
    e->index = r->small & 63, e->expect = w >> 16 & 7;
    e->argument = row_word(r, 1);
    if (r->small >> 7) {
        block = row_number(r, 4);
        if (how >> 4 & 3)
            block = ((how >> 4 & 3) == 1 ? 0 : block) + s->numbers[how >> 6 & 7];
        if (block > MAX_NUMBER)
            return 0;
        if (!((how & 3) == 0 || ((how & 3) > 1 && s->flags >> (how >> 2 & 3) & 1)))
            block *= 512;
    }
    if (source == FROM_RCA)
        e->argument = (uint32_t)s->rca << 16;
    if (source >= FROM_ADDRESS) {
        if (block >> 32)
            return e->what = SDV_STOPPED;
        e->argument = (uint32_t)block;
    }
    if (data == 5 && !s->app) /* CMD13, not ACMD13 */
        data = SDV_NO_DATA;
    e->data = data < 4 ? data : SDV_REGISTER;
    e->count = data < 2 ? 0 : data < 4 ? w & 0xFFFF : register_length(data);
    return e->what = s->commands ? SDV_SEND : SDV_STOPPED;
}

static uint32_t phase(const struct row *r, const struct sdv_state *s, struct sdv_event *e)
{
    e->count = r->small == 1 ? s->length : r->small > 2 ? 0 : s->announced;
    return e->what = r->small == 0 ? SDV_DATA_IN : r->small == 1 ? SDV_REG_IN : r->small == 2 ? SDV_DATA_OUT : SDV_WAIT;
}

/* the word of a statement without an event by which it leads on; 2 for none, where a number leaves its range */
static size_t pass(const struct row *r, struct sdv_state *s)
{
    uint32_t flag = 1u << (r->small >> 1 & 31), inner = s->depth - 1;
    switch (r->kind) {
    case LET: return set_number(r, s) ? 0 : 2;
    case IF: return holds(r, s) ? 0 : 1;
    case FLAG: s->flags = r->small & 1 ? s->flags | flag : s->flags & ~flag; return 0;
    case LINES: s->lines = r->small == 0 ? 1 : r->small == 1 ? 4 : 8; return 0;
    case LOOP: if (inner > 3 || s->turns[inner] == 0) return 1; s->turns[inner]--; return 0;
    default: return 0;
    }
}

uint32_t sdv_next(const uint32_t *t, size_t n, struct sdv_state *s, struct sdv_event *e)
{
    struct row r;
    *e = (struct sdv_event){0};
    while (row_of(t, n, s->point, &r)) {
        size_t way;
        e->point = s->point, e->lines = s->lines;
        switch (r.kind) {
        case SEND: if (send(&r, s, e)) return s->asked = e->what == SDV_SEND, e->what; way = 2; break;
        case PHASE: s->asked = 1; return phase(&r, s, e);
        case DONE: return e->what = SDV_DONE;
        case FAULT: return fault(e, &r, r.small);
        default: way = r.kind < DONE ? pass(&r, s) : 3;
        }
        if (way == 3)
            break;
        if (way == 2)
            return number_fault(e);
        go(s, row_word(&r, way));
    }
    return e->what = SDV_STOPPED;
}

static uint32_t bits(const uint8_t *r2, uint32_t high, uint32_t low)
{
    uint32_t v = 0;
    for (uint32_t b = high + 1; b-- > low;)
        v = v << 1 | (uint32_t)(r2[15 - b / 8] >> b % 8 & 1);
    return v;
}

/* 0 where the register cannot be read */
static int take_csd(struct sdv_state *s, const uint8_t *r2)
{
    uint32_t structure = bits(r2, 127, 126), length = bits(r2, 83, 80);
    if (!s->kind && structure == 1)
        s->numbers[CSD_BLOCKS] = ((uint64_t)bits(r2, 69, 48) + 1) * 1024;
    else if ((!s->kind && structure > 1) || length < 9 || length > 11)
        return 0;
    else
        s->numbers[CSD_BLOCKS] = (bits(r2, 73, 62) + 1) << (bits(r2, 49, 47) + length - 7);
    return 1;
}

static int passes(const struct sdv_state *s, uint32_t guard, uint32_t expect, uint32_t reply, uint32_t word)
{
    int status = expect == 1 || expect == 6;
    if (reply != SDV_REPLY)
        return guard == (reply == SDV_SENT ? 2u : 1u);
    switch (guard) {
    case 2: return 1;
    case 3: return status && !(word & (expect == 6 ? 0xE000u : 0xFDF90000u | s->kind << 7));
    case 4: return status && (word >> 8 & 1);
    case 5: return expect == 1 && (word >> 5 & 1);
    case 6: return expect == 7 && (word & 0xFFF) == 0x1AA;
    case 7: return expect == 3 && word >> 31;
    case 8: return expect == 3 && (s->kind ? (word >> 29 & 3) == 2 : (word >> 30 & 1) == 1);
    default: return status && guard > 9 && (word >> 9 & 15) == guard - 10;
    }
}

/* whether an event of this kind was asked for, and its row; the run stops where another was */
static int is_asked(const uint32_t *t, size_t n, struct sdv_state *s, struct row *r, uint32_t kind)
{
    if (!s->asked)
        return 0;
    if (row_of(t, n, s->point, r) && r->kind == kind)
        return 1;
    stop(s);
    return 0;
}

int sdv_answer(const uint32_t *t, size_t n, struct sdv_state *s, uint32_t reply, uint32_t word, const uint8_t *r2)
{
    struct row r;
    uint32_t w, g, index, expect, data, cases;
    size_t i;
    if (!is_asked(t, n, s, &r, SEND))
        return 0;
    w = row_word(&r, 2), index = r.small & 63, expect = w >> 16 & 7, data = w >> 19 & 7;
    if (reply > SDV_TIMEOUT || (expect == 2 && reply == SDV_REPLY && !r2)) /* a damaged answer is a lost one */
        reply = SDV_TIMEOUT;
    if ((expect == 0) != (reply == SDV_SENT) || (index == 9 && expect == 2 && reply == SDV_REPLY && !take_csd(s, r2))) {
        stop(s);
        return 0;
    }
    if (index == 0 || (index == 3 && (expect != 6 || reply == SDV_REPLY)))
        s->rca = (uint16_t)(index == 0 ? 0 : expect == 6 ? word >> 16 : 1);
    if (data == 2 || data == 3)
        s->announced = (uint16_t)w;
    if (data > 3)
        s->length = register_length(data);
    s->commands -= s->commands > 0;
    s->app = index == 55 && expect == 1 && reply == SDV_REPLY && (word >> 5 & 1);
    for (cases = w >> 24, i = r.small >> 7 ? 6 : 3; cases; cases--, i += 2) {
        for (g = row_word(&r, i); g && passes(s, g & 31, expect, reply, word); g >>= 5) {}
        if (!g)
            break;
    }
    go(s, row_word(&r, cases ? i + 1 : 0));
    return 1;
}

int sdv_ended(const uint32_t *t, size_t n, struct sdv_state *s, int well, const uint8_t *bytes)
{
    struct row r;
    if (!is_asked(t, n, s, &r, PHASE))
        return 0;
    if (r.small == 1 && well && s->length == 512 && bytes) {
        s->numbers[EXT_BLOCKS] = bytes[212] | (uint32_t)bytes[213] << 8 | (uint32_t)bytes[214] << 16 | (uint32_t)bytes[215] << 24;
        s->numbers[EXT_BOOT] = 256u * bytes[226];
    }
    go(s, row_word(&r, well ? 0 : 1));
    return 1;
}
