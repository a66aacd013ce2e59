#include "port.h"
#ifdef PROVED
#include "../sdv_player.h"
#else
#include "../sdv_step.h"
#endif

enum { MOST_BLOCKS = 64 };
static uint8_t buffer[MOST_BLOCKS * 512];
static uint32_t given, sum;
static struct sdhci host;

/* THE TRACE */

static void put_text(const char *text)
{
    while (*text)
        port_put(*text++);
}

static void put_hex(uint32_t word, uint32_t digits)
{
    while (digits--)
        port_put("0123456789abcdef"[word >> 4 * digits & 15]);
}

static void put_number(uint32_t number)
{
    char digits[10];
    uint32_t count = 0;

    do {
        digits[count++] = (char)('0' + number % 10);
        number /= 10;
    } while (number != 0);
    while (count--)
        port_put(digits[count]);
}

static void put_phase(const char *word, uint32_t count, bool well)
{
    put_text(word);
    put_number(count);
    put_text(well ? " ok\n" : " cut\n");
}

static void put_exchange(const struct sdv_event *event, const struct sdhci_answer *answer)
{
    static const char *const formats[8] = {"", "R1 ", "R2 ", "R3 ", "", "", "R6 ", "R7 "};
    uint32_t i;

    put_text("CMD");
    put_number(event->index);
    port_put(' ');
    put_hex(event->argument, 8);
    port_put(' ');
    if (answer->outcome != SDHCI_ANSWERED) /* a damaged answer tells no more than none */
        put_text(answer->outcome == SDHCI_SENT ? "-" : "timeout");
    else
        put_text(formats[event->expect & 7]);
    if (answer->outcome == SDHCI_ANSWERED && event->expect == 2)
        for (i = 0; i < 15; i++)
            put_hex(answer->contents[i], 2);
    else if (answer->outcome == SDHCI_ANSWERED)
        put_hex(answer->word, 8);
    port_put('\n');
}

static void put_end(const struct sdv_event *event)
{
    uint32_t i;

    put_text(event->what == SDV_DONE ? "done" : event->what == SDV_FAULT ? "fault " : "stopped");
    for (i = 0; event->what == SDV_FAULT && i < event->count; i++)
        port_put((char)event->name[i]);
    put_text("\nsum ");
    put_number(sum);
    port_put('\n');
}

/* EVENTS */

static int exchange(const uint32_t *table, size_t words, struct sdv_state *state, const struct sdv_event *event)
{
    static const uint32_t replies[] = {SDV_SENT, SDV_REPLY, SDV_TIMEOUT, SDV_DAMAGED};
    struct sdhci_answer answer;
    struct sdhci_command command = {event->index, event->argument, (enum sdhci_response)event->expect, event->data == SDV_BUSY,
                                    {SDHCI_NO_DATA, 512, event->count, event->lines}};

    if (event->data == SDV_BLOCKS_OUT)
        command.data.direction = SDHCI_TO_CARD;
    else if (event->data == SDV_BLOCKS_IN || event->data == SDV_REGISTER)
        command.data.direction = SDHCI_TO_HOST;
    if (event->data == SDV_REGISTER)
        command.data.block_bytes = event->count, command.data.blocks = 1;
    sdhci_exchange(&host, &command, &answer);
    put_exchange(event, &answer);
    return sdv_answer(table, words, state, replies[answer.outcome], answer.word, answer.contents);
}

static bool receive(uint32_t block_bytes, uint32_t blocks)
{
    uint32_t i;
    bool well = sdhci_receive(&host, buffer, block_bytes * blocks);

    for (i = 0; well && block_bytes == 512 && i < 512 * blocks; i++)
        sum += buffer[i];
    return well;
}

static bool give(uint32_t blocks)
{
    uint32_t i;

    for (i = 0; i < 512 * blocks; i++)
        buffer[i] = (uint8_t)(i + i / 512 + given);
    given += blocks;
    return sdhci_give(&host, buffer, 512 * blocks);
}

static int phase(const uint32_t *table, size_t words, struct sdv_state *state, const struct sdv_event *event)
{
    bool well;

    if (event->what != SDV_WAIT && event->what != SDV_REG_IN && event->count > MOST_BLOCKS)
        return 0;
    switch (event->what) {
    case SDV_DATA_IN:
        put_phase("IN ", event->count, well = receive(512, event->count));
        break;
    case SDV_REG_IN:
        put_phase("REG ", event->count, well = receive(event->count, 1));
        break;
    case SDV_DATA_OUT:
        put_phase("OUT ", event->count, well = give(event->count));
        break;
    default:
        put_text((well = sdhci_await_ready(&host)) ? "WAIT ok\n" : "WAIT late\n");
        break;
    }
    return sdv_ended(table, words, state, well, well ? buffer : NULL);
}

bool play(const uint32_t *table, size_t words)
{
    struct sdv_state state;
    struct sdv_event event;

    if (!port_open(&host.port) || !sdhci_start(&host) || !sdv_start(table, words, &state)) {
        put_text("no controller, no card, or no table\n");
        return false;
    }
    while (sdv_next(table, words, &state, &event) < SDV_DONE)
        if (!(event.what == SDV_SEND ? exchange(table, words, &state, &event) : phase(table, words, &state, &event)))
            break;
    put_end(&event);
    return event.what == SDV_DONE || event.what == SDV_FAULT;
}
