#include "sdhci_model.h"

#include <string.h>

#define MODEL_TEXT(name, text) text,
const char *const model_rule_names[MODEL_RULES_COUNT] = {MODEL_RULES(MODEL_TEXT)};

enum {
    BLOCKS = 0x04,
    ARGUMENT = 0x08,
    COMMAND = 0x0C,
    RESPONSE = 0x10,
    BUFFER = 0x20,
    PRESENT = 0x24,
    CONTROL = 0x28,
    CLOCK = 0x2C,
    STATUS = 0x30,
    ENABLE = 0x34,
    SIGNALS = 0x38,
    CAPABILITIES = 0x40,
    VERSION = 0xFC
};

#define COMMAND_COMPLETE 0x1u
#define TRANSFER_COMPLETE 0x2u
#define BUFFER_READY 0x30u
#define COMMAND_TIMEOUT (1u << 16)
#define COMMAND_CRC (1u << 17)
#define COMMAND_END_BIT (1u << 18)
#define COMMAND_INDEX (1u << 19)
#define DATA_TIMEOUT (1u << 20)
#define DATA_CRC (1u << 21)
#define COMMAND_STATUS (COMMAND_COMPLETE | 0xFu << 16)

static const uint64_t NEVER = UINT64_MAX, MILLISECOND = 1000000, MICROSECOND = 1000;
static const uint64_t ACCESS_TIME = 100, SHORTEST_CALL = 100, LONGEST_CALL = 20000;

static void broke(struct sdhci_model *m, enum model_rule rule) { m->broken[rule]++; }

static uint32_t word(const struct sdhci_model *m, uint32_t offset) { return m->words[offset / 4]; }

static void set_word(struct sdhci_model *m, uint32_t offset, uint32_t value, uint32_t mask)
{
    m->words[offset / 4] = (word(m, offset) & ~mask) | (value & mask);
}

static void raise_status(struct sdhci_model *m, uint32_t bits) { m->status |= bits & word(m, ENABLE); }

/* So many clocks of the card, in nanoseconds. */
static uint64_t clocks(const struct sdhci_model *m, uint64_t count) { return count * 1000000 / (m->khz ? m->khz : 400); }

bool model_is_busy(const struct sdhci_model *m) { return m->now < m->card.busy_until; }

static bool is_inhibited(const struct sdhci_model *m) { return m->command_inhibit || m->now < m->inhibited_until; }

/* A TRANSFER */

static uint32_t lines_of(const struct sdhci_model *m)
{
    uint32_t control = word(m, CONTROL);

    return control & 0x20 ? 8 : control & 0x02 ? 4 : 1;
}

static void begin_block(struct sdhci_model *m, uint64_t at)
{
    struct model_transfer *t = &m->transfer;

    t->began = at;
    t->ends = m->due[EVENT_BLOCK] = at + clocks(m, 8 * t->size / lines_of(m) + 20);
    m->due[EVENT_TIMEOUT] = t->ends + m->setup.give_up_ns; /* no block came, or the card is busy after it */
}

static bool has_more(const struct model_transfer *t) { return t->active && !t->failed && (!t->counted || t->left > 0); }

/* The next block goes out if there is one, and comes in if there is room for it. */
static void go_on(struct sdhci_model *m, uint64_t at)
{
    struct model_transfer *t = &m->transfer;

    if (m->due[EVENT_BLOCK] != NEVER || !has_more(t))
        return;
    if (t->reading ? t->queued < m->setup.buffers : t->queued > 0 && at >= m->card.busy_until)
        begin_block(m, at);
}

static void complete(struct sdhci_model *m)
{
    if (m->setup.completes && m->transfer.active && !m->transfer.reading)
        raise_status(m, DATA_TIMEOUT);
    m->transfer.active = m->watching = m->data_inhibit = false;
    m->due[EVENT_TIMEOUT] = NEVER;
    raise_status(m, TRANSFER_COMPLETE);
}

static void fail_data(struct sdhci_model *m, uint32_t error)
{
    raise_status(m, error);
    m->transfer.failed = true;
    m->watching = false;
    m->due[EVENT_BLOCK] = m->due[EVENT_TIMEOUT] = NEVER;
}

static void count_block(struct model_transfer *t)
{
    t->moved++;
    if (t->counted)
        t->left--;
}

static bool is_damaged(const struct sdhci_model *m)
{
    return m->transfer.moved + 1 == m->transfer.damaged || lines_of(m) != m->card.lines;
}

static void end_block_in(struct sdhci_model *m, uint64_t at)
{
    struct model_transfer *t = &m->transfer;
    bool damaged = is_damaged(m);

    if (!card_send(&m->card, t->queue[t->queued]))
        return; /* none comes, and the controller waits */
    count_block(t);
    t->queued++;
    if (damaged)
        fail_data(m, DATA_CRC); /* its bytes are in the buffer all the same */
    m->due[EVENT_TIMEOUT] = NEVER;
    raise_status(m, 0x20);
    go_on(m, at + clocks(m, 2));
}

static void end_block_out(struct sdhci_model *m, uint64_t at)
{
    struct model_transfer *t = &m->transfer;
    bool damaged = is_damaged(m);

    card_receive(&m->card, t->queue[0], damaged, at, at + clocks(m, 2));
    if (damaged) {
        fail_data(m, DATA_CRC);
        if (m->setup.completes && t->counted && t->left == 1)
            complete(m);
        return;
    }
    count_block(t);
    memcpy(t->queue[0], t->queue[1], CARD_BLOCK);
    t->queued--;
    raise_status(m, 0x10);
    m->due[EVENT_READY] = m->card.busy_until > at ? m->card.busy_until : at;
}

/* Busy has ended: that of a block, or of an R1b. */
static void end_busy(struct sdhci_model *m, uint64_t at)
{
    struct model_transfer *t = &m->transfer;

    card_ready(&m->card);
    if (!t->reading)
        m->due[EVENT_TIMEOUT] = NEVER;
    if (m->watching || (t->active && !t->reading && t->counted && t->left == 0 && !t->failed))
        complete(m);
    else if (!t->reading)
        go_on(m, at);
}

/* COMMANDS */

static const struct model_mishap *mishap_of(struct sdhci_model *m, uint32_t index)
{
    static const struct model_mishap none = {MODEL_NOTHING, 0, 0, 0};
    const struct model_mishap *mishap = &m->setup.mishap;

    return m->seen[index]++ == mishap->skip && mishap->index == index ? mishap : &none;
}

static void begin_transfer(struct sdhci_model *m, bool reading, const struct model_mishap *mishap, uint64_t at)
{
    struct model_transfer *t = &m->transfer;
    uint32_t mode = word(m, COMMAND);
    bool several = mode >> 5 & 1;

    *t = (struct model_transfer){.active = true, .reading = reading};
    t->size = word(m, BLOCKS) & 0xFFF;
    t->counted = !several || (mode >> 1 & 1);
    t->left = several ? word(m, BLOCKS) >> 16 : 1;
    t->damaged = mishap->kind == MODEL_BLOCK_CRC ? mishap->block + 1 : 0;
    if (reading)
        go_on(m, at + 100 * MICROSECOND);
}

/* CMD12 ends the transfer, and with it the blocks in the buffer. */
static void abort_transfer(struct sdhci_model *m)
{
    struct model_transfer *t = &m->transfer;

    if (t->active && !t->reading && !t->failed && t->queued > 0)
        broke(m, MODEL_LOST_BLOCK);
    t->active = false;
    m->due[EVENT_BLOCK] = m->due[EVENT_TIMEOUT] = NEVER;
}

/* The errors of a response: its mishap, and what the command register says otherwise. */
static uint32_t response_errors(struct sdhci_model *m, const struct card_answer *answer, const struct model_mishap *mishap)
{
    uint32_t command = word(m, COMMAND) >> 16, errors = 0;
    bool crc = command >> 3 & 1, index = command >> 4 & 1;

    if (answer->format == 0 || mishap->kind == MODEL_ANSWER_LOST)
        return COMMAND_TIMEOUT;
    if ((answer->format != 3 && !crc) || (answer->format != 2 && answer->format != 3 && !index))
        broke(m, MODEL_UNCHECKED);
    if ((mishap->kind == MODEL_CRC || answer->format == 3) && crc)
        errors |= COMMAND_CRC;
    if (mishap->kind == MODEL_END_BIT || (answer->format == 2) != ((command & 3) == 1))
        errors |= COMMAND_END_BIT;
    if ((mishap->kind == MODEL_INDEX || answer->format == 2 || answer->format == 3) && index)
        errors |= COMMAND_INDEX;
    return errors;
}

static void show_response(struct sdhci_model *m, const struct card_answer *answer)
{
    uint32_t i;

    set_word(m, RESPONSE, answer->word, ~0u);
    for (i = 0; answer->format == 2 && i < 4; i++)
        set_word(m, RESPONSE + 4 * i, 0, ~0u);
    for (i = 0; answer->format == 2 && i < 15; i++)
        m->words[RESPONSE / 4 + (14 - i) / 4] |= (uint32_t)answer->contents[i] << 8 * ((14 - i) % 4);
}

/* The controller has to know what follows the command. */
static bool is_told(const struct sdhci_model *m, const struct card_answer *answer)
{
    uint32_t command = word(m, COMMAND), bytes = answer->to_host + answer->to_card;
    bool several = command >> 24 == 18 || command >> 24 == 25;

    if (answer->busy && (command >> 16 & 3) != 3)
        return false;
    if (bytes == 0)
        return true;
    return (command >> 21 & 1) && (command >> 4 & 1) == (answer->to_host != 0) && (word(m, BLOCKS) & 0xFFF) == bytes
        && (command >> 5 & 1) == several;
}

/* What goes on at the data lines after a good answer. */
static void follow(struct sdhci_model *m, const struct card_answer *answer, const struct model_mishap *mishap, bool aborted, uint64_t at)
{
    uint32_t command = word(m, COMMAND) >> 16;

    if (!is_told(m, answer))
        broke(m, MODEL_UNTOLD);
    if (command >> 5 & 1)
        begin_transfer(m, word(m, COMMAND) >> 4 & 1, mishap, at);
    if ((command & 3) != 3 || (aborted && !m->setup.completes))
        return;
    m->watching = true;
    if (m->card.busy_until > at)
        m->due[EVENT_TIMEOUT] = at + m->setup.give_up_ns;
    else
        m->due[EVENT_NO_BUSY] = at + clocks(m, m->setup.late_clocks + 8);
}

static void end_command(struct sdhci_model *m, uint64_t at)
{
    uint32_t command = word(m, COMMAND) >> 16, index = command >> 8 & 63, errors;
    const struct model_mishap *mishap = mishap_of(m, index);
    struct card_answer answer = {0};
    bool aborted = index == 12 && m->transfer.active;

    if (mishap->kind != MODEL_COMMAND_LOST && m->khz)
        card_take(&m->card, index, word(m, ARGUMENT), at, at + clocks(m, m->setup.late_clocks), &answer);
    if (m->card.busy_until > at || index == 0)
        m->due[EVENT_READY] = index == 0 ? NEVER : m->card.busy_until;
    if (index == 12 && answer.format != 0)
        abort_transfer(m);
    errors = (command & 3) == 0 ? 0 : response_errors(m, &answer, mishap);
    if (errors != 0) {
        raise_status(m, errors); /* both inhibits stay until they are reset */
        card_drain(&m->card);
        return;
    }
    m->command_inhibit = false;
    m->inhibited_until = at + 20 * MICROSECOND;
    show_response(m, &answer);
    raise_status(m, COMMAND_COMPLETE);
    follow(m, &answer, mishap, aborted, at);
}

static void check_clock(struct sdhci_model *m)
{
    uint64_t count = m->clocks + (m->now - m->clock_at) * m->khz / 1000000;

    if (!m->card.powered || m->khz == 0)
        broke(m, MODEL_NO_CLOCK);
    else if (m->now < m->powered_at + MILLISECOND || count < 74)
        broke(m, MODEL_EARLY);
    if (!m->card.selected && m->khz > 400)
        broke(m, MODEL_IDENTIFICATION);
}

static void send_command(struct sdhci_model *m)
{
    uint32_t command = word(m, COMMAND) >> 16, index = command >> 8 & 63;
    bool for_data = (command >> 5 & 1) || (command & 3) == 3, abort = (command >> 6 & 3) == 3 && index == 12;

    if (is_inhibited(m)) {
        broke(m, MODEL_COMMAND_INHIBITED);
        return;
    }
    if (for_data && m->data_inhibit && !abort) {
        broke(m, MODEL_DATA_INHIBITED);
        return;
    }
    if (m->status & COMMAND_STATUS)
        broke(m, MODEL_OLD_STATUS);
    check_clock(m);
    m->command_inhibit = true;
    m->data_inhibit = m->data_inhibit || for_data;
    m->due[EVENT_RESPONSE] = m->now + clocks(m, (command & 3) == 0 ? 56 : (command & 3) == 1 ? 200 : 112);
}

/* RESETS, POWER AND CLOCK */

static void reset_data(struct sdhci_model *m)
{
    struct model_transfer *t = &m->transfer;

    if (model_is_busy(m))
        broke(m, MODEL_RESET_BUSY);
    if (t->active && !t->failed && (m->card.state == CARD_DATA || m->card.state == CARD_RCV))
        broke(m, MODEL_RESET_OPEN);
    if (t->active && !t->failed && !t->reading && m->card.state == CARD_RCV && t->queued > 0)
        broke(m, MODEL_LOST_BLOCK);
    if (t->active && t->reading)
        card_drain(&m->card);
    *t = (struct model_transfer){0};
    m->watching = m->data_inhibit = false;
    m->status &= ~(TRANSFER_COMPLETE | BUFFER_READY);
    m->due[EVENT_BLOCK] = m->due[EVENT_TIMEOUT] = m->due[EVENT_NO_BUSY] = NEVER;
}

static void set_power(struct sdhci_model *m, uint32_t control)
{
    uint32_t voltage = control & 0x0E, bit = voltage == 0x0E ? 1 : voltage == 0x0C ? 2 : voltage == 0x0A ? 4 : 0;
    uint32_t of_card = m->setup.card.emmc ? 7 : 3;
    bool on = control & 1;

    if (on && !(bit & m->setup.voltages & of_card)) {
        broke(m, MODEL_VOLTAGE);
        on = false;
    }
    if (on && !m->card.powered && !m->setup.absent) {
        if (m->now < m->unpowered_at + MILLISECOND)
            broke(m, MODEL_BLINK);
        m->powered_at = m->clock_at = m->now;
        m->clocks = 0;
        card_power(&m->card, true);
    } else if (!on && m->card.powered) {
        m->unpowered_at = m->now;
        card_power(&m->card, false);
    }
}

static void reset_all(struct sdhci_model *m)
{
    m->card.busy_until = 0;
    m->transfer.active = false;
    reset_data(m);
    memset(m->words, 0, sizeof m->words);
    m->status = m->khz = 0;
    m->command_inhibit = false;
    m->due[EVENT_RESPONSE] = m->due[EVENT_STABLE] = NEVER;
    set_power(m, 0);
}

static void reset(struct sdhci_model *m, uint32_t which)
{
    if (which & 1)
        reset_all(m);
    if (which & 2) {
        m->command_inhibit = false;
        m->status &= ~COMMAND_COMPLETE;
        m->due[EVENT_RESPONSE] = NEVER;
    }
    if (which & 4)
        reset_data(m);
    set_word(m, CLOCK, which << 24, 7u << 24);
    m->due[EVENT_RESET] = m->now + 2 * MICROSECOND;
}

static uint32_t divider(struct sdhci_model *m, uint32_t clock)
{
    uint32_t half = clock >> 8 & 0xFF;

    if (m->setup.version_2 && ((half & (half - 1)) != 0 || (clock & 0xC0) != 0))
        broke(m, MODEL_DIVIDER);
    if (!m->setup.version_2)
        half |= (clock & 0xC0) << 2;
    return half ? 2 * half : 1;
}

static void set_clock(struct sdhci_model *m, uint32_t value)
{
    uint32_t old = word(m, CLOCK), khz = m->setup.base_mhz * 1000 / divider(m, value);
    bool changed = (old ^ value) & 0xFFC1, stable = !changed && (old & 2), runs = value & 4;

    if (changed && (old & 4))
        broke(m, MODEL_RUNNING);
    if (m->khz && !runs && (is_inhibited(m) || m->data_inhibit))
        broke(m, MODEL_STOPPED);
    if (runs && !stable)
        broke(m, MODEL_UNSTABLE);
    if (runs && khz > 25000)
        broke(m, MODEL_FAST);
    m->clocks += (m->now - m->clock_at) * m->khz / 1000000;
    m->clock_at = m->now;
    m->khz = runs && stable ? khz : 0;
    set_word(m, CLOCK, (value & ~2u) | (stable ? 2u : 0u), 0xFFFFFF);
    if (changed)
        m->due[EVENT_STABLE] = value & 1 ? m->now + 50 * MICROSECOND : NEVER;
}

/* TIME */

static void happen(struct sdhci_model *m, enum model_event event, uint64_t at)
{
    switch (event) {
    case EVENT_RESPONSE:
        end_command(m, at);
        break;
    case EVENT_READY:
        end_busy(m, at);
        break;
    case EVENT_BLOCK:
        if (m->transfer.reading)
            end_block_in(m, at);
        else
            end_block_out(m, at);
        break;
    case EVENT_TIMEOUT:
        fail_data(m, DATA_TIMEOUT);
        break;
    case EVENT_NO_BUSY:
        complete(m);
        break;
    case EVENT_RESET:
        set_word(m, CLOCK, 0, 7u << 24);
        break;
    case EVENT_STABLE:
        set_word(m, CLOCK, 2, 2);
        break;
    default:
        m->inserted = !m->setup.absent && !m->setup.soldered;
        break;
    }
}

static uint32_t first_due(const struct sdhci_model *m)
{
    uint32_t event, first = 0;

    for (event = 1; event < EVENTS; event++)
        if (m->due[event] < m->due[first])
            first = event;
    return first;
}

void model_pass(struct sdhci_model *m, uint64_t nanoseconds)
{
    uint32_t event;

    m->now += nanoseconds;
    while (m->due[event = first_due(m)] <= m->now) {
        uint64_t at = m->due[event];

        m->due[event] = NEVER;
        happen(m, (enum model_event)event, at);
    }
}

uint32_t model_milliseconds(struct sdhci_model *m)
{
    model_pass(m, m->call_ns);
    m->call_ns = m->call_ns < LONGEST_CALL ? 2 * m->call_ns : LONGEST_CALL;
    return m->setup.first_ms + (uint32_t)(m->now / MILLISECOND);
}

void model_begin(struct sdhci_model *m, const struct model_setup *setup)
{
    uint32_t event;

    memset(m, 0, sizeof *m);
    m->setup = *setup;
    m->card.setup = setup->card;
    card_power(&m->card, !setup->absent);
    m->call_ns = SHORTEST_CALL;
    for (event = 0; event < EVENTS; event++)
        m->due[event] = NEVER;
    m->status = COMMAND_COMPLETE | TRANSFER_COMPLETE | COMMAND_TIMEOUT;
    m->due[EVENT_DETECTED] = setup->bounce_ns;
}

/* REGISTERS */

/* What the block on the lines shows at DAT0 now, the high bit of each byte first. */
static bool data_bit(const struct sdhci_model *m)
{
    const struct model_transfer *t = &m->transfer;
    uint64_t bit = (m->now - t->began) * 8 * t->size / (t->ends - t->began);
    const uint8_t *block = t->queue[t->reading ? t->queued % 2 : 0];

    return t->reading || (block[bit / 8 % CARD_BLOCK] >> (7 - bit % 8) & 1);
}

static uint32_t present(const struct sdhci_model *m)
{
    const struct model_transfer *t = &m->transfer;
    bool writing = t->active && !t->reading && !t->failed, on_lines = m->due[EVENT_BLOCK] != NEVER && m->now >= t->began;
    bool room = writing && t->queued < m->setup.buffers && (!t->counted || t->queued < t->left);
    bool low = (m->now >= m->card.busy_from && m->now < m->card.busy_until) || (on_lines && !data_bit(m));

    return (is_inhibited(m) ? 1u : 0u) | (m->data_inhibit ? 2u : 0u) | (on_lines ? 4u : 0u) | (writing ? 1u << 8 : 0u)
        | (t->active && t->reading ? 1u << 9 : 0u) | (room ? 1u << 10 : 0u) | (t->active && t->reading && t->queued > 0 ? 1u << 11 : 0u)
        | (m->inserted ? 1u << 16 : 0u) | (m->due[EVENT_DETECTED] == NEVER ? 1u << 17 : 0u) | 1u << 19 | (low ? 0xEu : 0xFu) << 20 | 1u << 24;
}

static uint32_t capabilities(const struct sdhci_model *m)
{
    return m->setup.untold ? 0 : 50u | 1u << 7 | m->setup.base_mhz << 8 | m->setup.voltages << 24;
}

static uint32_t read_buffer(struct sdhci_model *m)
{
    struct model_transfer *t = &m->transfer;
    uint32_t value = 0, i;

    if (!(present(m) >> 11 & 1)) {
        broke(m, MODEL_NO_BLOCK);
        return 0;
    }
    for (i = 0; i < 4; i++)
        value |= (uint32_t)t->queue[0][(t->at + i) % CARD_BLOCK] << 8 * i;
    t->at += 4;
    if (t->at >= t->size) {
        t->at = 0;
        memcpy(t->queue[0], t->queue[1], CARD_BLOCK);
        t->queued--;
        if (t->counted && t->left == 0 && t->queued == 0 && (!t->failed || m->setup.completes))
            complete(m);
        go_on(m, m->now);
    }
    return value;
}

static void write_buffer(struct sdhci_model *m, uint32_t value)
{
    struct model_transfer *t = &m->transfer;
    uint32_t i;

    if (!(present(m) >> 10 & 1)) {
        broke(m, MODEL_NO_ROOM);
        return;
    }
    for (i = 0; i < 4; i++)
        t->queue[t->queued][(t->at + i) % CARD_BLOCK] = (uint8_t)(value >> 8 * i);
    t->at += 4;
    if (t->at >= t->size) {
        t->at = 0;
        t->queued++;
        go_on(m, m->now);
    }
}

static uint32_t read_word(struct sdhci_model *m, uint32_t offset)
{
    switch (offset) {
    case RESPONSE:
    case RESPONSE + 4:
    case RESPONSE + 8:
    case RESPONSE + 12:
        if (m->command_inhibit)
            broke(m, MODEL_EARLY_RESPONSE);
        return word(m, offset);
    case BUFFER:
        return read_buffer(m);
    case PRESENT:
        return present(m);
    case STATUS:
        return m->status | (m->status >> 16 ? 0x8000u : 0u);
    case CAPABILITIES:
        return capabilities(m);
    case VERSION:
        return m->setup.version_2 ? 1u << 16 : 2u << 16;
    default:
        return word(m, offset);
    }
}

static void write_control(struct sdhci_model *m, uint32_t value, uint32_t mask)
{
    uint32_t old = word(m, CONTROL);

    set_word(m, CONTROL, value, mask);
    if (m->transfer.active && ((old ^ word(m, CONTROL)) & 0x22))
        broke(m, MODEL_CHANGED);
    if (mask & 0xFF00)
        set_power(m, word(m, CONTROL) >> 8);
}

static void write_command(struct sdhci_model *m, uint32_t value, uint32_t mask)
{
    if (m->data_inhibit && ((word(m, COMMAND) ^ value) & mask & 0xFFFF)) {
        if (m->transfer.active)
            broke(m, MODEL_CHANGED);
        mask &= 0xFFFF0000u; /* the transfer mode is protected */
    }
    if (is_inhibited(m) && (mask & 0xFFFF0000u)) {
        broke(m, MODEL_COMMAND_INHIBITED);
        return;
    }
    set_word(m, COMMAND, value, mask);
    if (mask & 0xFF000000u)
        send_command(m);
}

static void write_word(struct sdhci_model *m, uint32_t offset, uint32_t value, uint32_t mask)
{
    switch (offset) {
    case BLOCKS:
        if (m->transfer.active)
            broke(m, MODEL_CHANGED);
        else
            set_word(m, offset, value, mask);
        break;
    case COMMAND:
        write_command(m, value, mask);
        break;
    case BUFFER:
        write_buffer(m, value);
        break;
    case CONTROL:
        write_control(m, value, mask);
        break;
    case CLOCK:
        if (value & mask & 7u << 24)
            reset(m, value >> 24 & 7);
        if (mask & 0xFFFF)
            set_clock(m, (word(m, CLOCK) & ~mask) | (value & mask));
        set_word(m, CLOCK, value, mask & 0xFF0000);
        break;
    case STATUS:
        m->status &= ~(value & mask);
        break;
    case ARGUMENT:
    case ENABLE:
    case SIGNALS:
        set_word(m, offset, value, mask);
        break;
    default: /* nothing is written there */
        break;
    }
}

static bool is_access(struct sdhci_model *m, uint32_t bytes, uint32_t offset)
{
    bool is = (bytes == 1 || bytes == 2 || bytes == 4) && offset % bytes == 0 && offset < 256 && (offset / 4 != BUFFER / 4 || bytes == 4);

    if (!is)
        broke(m, MODEL_ACCESS);
    return is;
}

/* Where the registers take accesses of 32 bits alone, a port without care reads the word, changes the bytes, and writes the word. */
static uint32_t careless(struct sdhci_model *m, uint32_t offset, uint32_t value, uint32_t mask)
{
    uint32_t old = read_word(m, offset);

    if (offset == COMMAND && !(mask & 0xFF000000u))
        broke(m, MODEL_RESENT);
    if (offset == STATUS && (old & ~mask & 0xFFFF7FFFu))
        broke(m, MODEL_CLEARED);
    return (old & ~mask) | (value & mask);
}

uint32_t model_read(struct sdhci_model *m, uint32_t bytes, uint32_t offset)
{
    model_pass(m, ACCESS_TIME);
    if (!is_access(m, bytes, offset))
        return 0;
    return read_word(m, offset & ~3u) >> 8 * (offset & 3) & (bytes == 4 ? ~0u : (1u << 8 * bytes) - 1);
}

void model_write(struct sdhci_model *m, uint32_t bytes, uint32_t offset, uint32_t value)
{
    uint32_t mask = (bytes == 4 ? ~0u : (1u << 8 * bytes) - 1) << 8 * (offset & 3);

    model_pass(m, ACCESS_TIME);
    m->call_ns = SHORTEST_CALL;
    if (!is_access(m, bytes, offset))
        return;
    value <<= 8 * (offset & 3);
    offset &= ~3u;
    if (m->setup.words_alone && bytes != 4) {
        value = careless(m, offset, value, mask);
        mask = ~0u;
    }
    write_word(m, offset, value, mask);
}
