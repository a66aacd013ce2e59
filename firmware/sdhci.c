#include "sdhci.h"

/* How long a wait may take, in milliseconds: for the controller, for a block or for a busy card. An SD card may be busy for 250 after
 * a block, an SDXC card for 500, and the buffer may hold several blocks. */
#ifndef SDHCI_BUSY_MS
#define SDHCI_BUSY_MS 2000U
#endif

/* How long power is off, takes to rise, and the card then takes to wake with its clock: at least 1 each, with 74 clocks at the end. */
#define SDHCI_POWER_MS 10U

#define SDHCI_SLOW_KHZ 400U
#define SDHCI_FAST_KHZ 25000U

/* Registers, section 2.1 of the specification, by the words that they lie in. */
#define SDHCI_BLOCKS 0x04U /* block size; block count from bit 16 on */
#define SDHCI_ARGUMENT 0x08U
#define SDHCI_COMMAND 0x0CU /* transfer mode; command from bit 16 on: to write it sends the command */
#define SDHCI_RESPONSE 0x10U
#define SDHCI_BUFFER 0x20U
#define SDHCI_PRESENT_STATE 0x24U
#define SDHCI_CONTROL 0x28U       /* host control; power control from bit 8 on */
#define SDHCI_CLOCK 0x2CU         /* clock control; timeout control from bit 16 on; software reset from bit 24 on */
#define SDHCI_STATUS 0x30U        /* normal interrupt status; error interrupt status from bit 16 on */
#define SDHCI_STATUS_ENABLE 0x34U /* likewise */
#define SDHCI_CAPABILITIES 0x40U
#define SDHCI_VERSION 0xFCU /* host controller version from bit 16 on */

#define SDHCI_RESET_ALL (1U << 24)
#define SDHCI_RESET_COMMAND (1U << 25)
#define SDHCI_RESET_DATA (1U << 26)

#define SDHCI_COMMAND_INHIBIT (1U << 0)
#define SDHCI_DATA_INHIBIT (1U << 1)
#define SDHCI_WRITE_ENABLE (1U << 10)
#define SDHCI_READ_ENABLE (1U << 11)
#define SDHCI_CARD_INSERTED (1U << 16)
#define SDHCI_DETECTED (3U << 16) /* a card is inserted, or the slot is known to be empty */
#define SDHCI_DAT0_LEVEL (1U << 20)

#define SDHCI_COMMAND_COMPLETE (1U << 0)
#define SDHCI_TRANSFER_COMPLETE (1U << 1)
#define SDHCI_COMMAND_DAMAGE (7U << 17) /* CRC, end bit, index */
#define SDHCI_COMMAND_ERRORS (15U << 16)
#define SDHCI_DATA_TIMEOUT (1U << 20)
#define SDHCI_DATA_DAMAGE (3U << 21) /* CRC, end bit */
#define SDHCI_DATA_ERRORS (SDHCI_DATA_TIMEOUT | SDHCI_DATA_DAMAGE)
#define SDHCI_COMMAND_STATUSES (SDHCI_COMMAND_COMPLETE | SDHCI_COMMAND_ERRORS)
#define SDHCI_STATUSES (SDHCI_COMMAND_STATUSES | SDHCI_DATA_ERRORS | 0x32U) /* with Transfer Complete and the two of the buffer */

#define SDHCI_COUNT_BLOCKS (1U << 1)
#define SDHCI_READ_TRANSFER (1U << 4)
#define SDHCI_SEVERAL_BLOCKS (1U << 5)

#define SDHCI_CHECK_CRC (1U << 3)
#define SDHCI_CHECK_INDEX (1U << 4)
#define SDHCI_RESPONSE_136 1U
#define SDHCI_RESPONSE_48 2U
#define SDHCI_RESPONSE_48_BUSY 3U
#define SDHCI_DATA_PRESENT (1U << 5)
#define SDHCI_ABORT (3U << 6)

#define SDHCI_INTERNAL_CLOCK (1U << 0)
#define SDHCI_CLOCK_STABLE (1U << 1)
#define SDHCI_CARD_CLOCK (1U << 2)
#define SDHCI_LONGEST_TIMEOUT (14U << 16)
#define SDHCI_POWER_3_3 0xF00U     /* 3.3 V, and power on */
#define SDHCI_LOWER_VOLTAGE 0x200U /* from one voltage to the next lower one */
#define SDHCI_POWER_ON 0x100U
#define SDHCI_EMBEDDED (1U << 30) /* of the capabilities: a slot for a soldered device */

static uint32_t sdhci_get(const struct sdhci *host, uint32_t offset)
{
    return host->port.read(host->port.board, offset);
}

static void sdhci_put(const struct sdhci *host, uint32_t offset, uint32_t value)
{
    host->port.write(host->port.board, offset, value);
}

static uint32_t sdhci_now(const struct sdhci *host)
{
    return host->port.milliseconds(host->port.board);
}

/* Waits until one of these bits is set in the register; of those in `low` until it is clear. False after SDHCI_BUSY_MS, or at an error
 * of the data lines if the wait is for them. The register is read once more at the end: a program may be held up between two reads. */
static bool sdhci_await(const struct sdhci *host, uint32_t offset, uint32_t bits, uint32_t low)
{
    uint32_t errors = offset == SDHCI_PRESENT_STATE && bits != SDHCI_COMMAND_INHIBIT ? SDHCI_DATA_ERRORS : 0U;
    uint32_t since = sdhci_now(host);
    bool over = false;

    while (((sdhci_get(host, offset) ^ low) & bits) == 0U) {
        if (over || (sdhci_get(host, SDHCI_STATUS) & errors) != 0U) {
            return false;
        }
        over = sdhci_now(host) - since > SDHCI_BUSY_MS;
    }
    return true;
}

static void sdhci_pause(const struct sdhci *host, uint32_t milliseconds)
{
    uint32_t since = sdhci_now(host);

    while (sdhci_now(host) - since <= milliseconds) {
    }
}

static bool sdhci_reset(const struct sdhci *host, uint32_t which)
{
    sdhci_put(host, SDHCI_CLOCK, host->clock | which);
    return sdhci_await(host, SDHCI_CLOCK, which, which);
}

/* START */

/* Bits 15..6 of clock control: the base clock is divided by twice the divider, or not at all by 0. The clock stands still while it
 * changes. False if there is no such divider, or the clock stays off. */
static bool sdhci_set_clock(struct sdhci *host, uint32_t khz)
{
    uint32_t half = host->base_khz > khz ? 1U : 0U, most = host->wide_divider ? 1023U : 128U;

    while (half != 0U && host->base_khz > 2U * half * khz) {
        half = host->wide_divider ? half + 1U : 2U * half;
        if (half > most) {
            return false;
        }
    }
    host->khz = khz;
    sdhci_put(host, SDHCI_CLOCK, host->clock & ~SDHCI_CARD_CLOCK);
    host->clock = SDHCI_LONGEST_TIMEOUT | (half & 0xFFU) << 8 | (half >> 8) << 6 | SDHCI_INTERNAL_CLOCK;
    sdhci_put(host, SDHCI_CLOCK, host->clock);
    if (!sdhci_await(host, SDHCI_CLOCK, SDHCI_CLOCK_STABLE, 0)) {
        return false;
    }
    host->clock |= SDHCI_CARD_CLOCK;
    sdhci_put(host, SDHCI_CLOCK, host->clock);
    return true;
}

/* The base clock and the highest voltage that the capabilities tell: 3.3, 3.0 or, for a soldered device, 1.8 V. It is 3.3 V where they
 * are not filled in. False if there is no clock or no voltage. */
static bool sdhci_learn(struct sdhci *host, uint32_t capabilities, bool soldered)
{
    uint32_t voltages = capabilities != 0U ? capabilities >> 24 & (soldered ? 7U : 3U) : 1U;

    host->wide_divider = (sdhci_get(host, SDHCI_VERSION) >> 16 & 0xFFU) >= 2U;
    host->base_khz = host->port.base_khz;
    if (host->base_khz == 0U) {
        host->base_khz = (capabilities >> 8 & (host->wide_divider ? 0xFFU : 0x3FU)) * 1000U;
    }
    host->power = SDHCI_POWER_3_3;
    while (voltages != 0U && (voltages & 1U) == 0U) {
        voltages >>= 1;
        host->power -= SDHCI_LOWER_VOLTAGE;
    }
    return voltages != 0U && host->base_khz != 0U;
}

bool sdhci_start(struct sdhci *host)
{
    uint32_t capabilities;
    bool soldered;

    host->clock = 0;
    host->mode = 0;
    host->line = SDHCI_FREE;
    host->wanted_khz = SDHCI_SLOW_KHZ;
    if (!sdhci_reset(host, SDHCI_RESET_ALL)) {
        return false;
    }
    capabilities = sdhci_get(host, SDHCI_CAPABILITIES);
    soldered = host->port.soldered || (capabilities & SDHCI_EMBEDDED) != 0U;
    if (!sdhci_learn(host, capabilities, soldered)) {
        return false;
    }
    if (!soldered) {
        (void)sdhci_await(host, SDHCI_PRESENT_STATE, SDHCI_DETECTED, 0);
        if ((sdhci_get(host, SDHCI_PRESENT_STATE) & SDHCI_CARD_INSERTED) == 0U) {
            return false;
        }
    }
    sdhci_put(host, SDHCI_STATUS_ENABLE, SDHCI_STATUSES);
    sdhci_put(host, SDHCI_CONTROL, host->power & ~SDHCI_POWER_ON);
    sdhci_pause(host, SDHCI_POWER_MS);
    sdhci_put(host, SDHCI_CONTROL, host->power);
    sdhci_pause(host, SDHCI_POWER_MS);
    if (!sdhci_set_clock(host, SDHCI_SLOW_KHZ)) {
        return false;
    }
    sdhci_pause(host, SDHCI_POWER_MS);
    return true;
}

/* THE DATA LINES */

/* Waits until DAT0 has been high for so many ticks of the clock. */
static bool sdhci_await_high(const struct sdhci *host, uint32_t ticks)
{
    uint32_t since = sdhci_now(host), low = since, now;

    for (;;) {
        now = sdhci_now(host);
        if ((sdhci_get(host, SDHCI_PRESENT_STATE) & SDHCI_DAT0_LEVEL) == 0U) {
            low = sdhci_now(host);
        } else if (now - low >= ticks) {
            return true;
        }
        if (now - since > SDHCI_BUSY_MS + ticks) {
            return false;
        }
    }
}

/* After an R1b the controller watches DAT0, and says when busy has ended, unless it gives up before. Where it does not watch, a
 * millisecond has to pass in which the card would have pulled DAT0 low. */
bool sdhci_await_ready(struct sdhci *host)
{
    if (host->line == SDHCI_BUSY) {
        host->line = sdhci_await(host, SDHCI_PRESENT_STATE, SDHCI_DATA_INHIBIT, SDHCI_DATA_INHIBIT) ? SDHCI_FREE : SDHCI_STALE;
    }
    return sdhci_await_high(host, host->line == SDHCI_FREE ? 0U : 2U);
}

/* Makes the data lines free for a command. False if the card is busy. */
static bool sdhci_free_lines(struct sdhci *host)
{
    if (!sdhci_await_ready(host)) {
        return false;
    }
    if (host->line != SDHCI_FREE || (sdhci_get(host, SDHCI_PRESENT_STATE) & SDHCI_DATA_INHIBIT) != 0U) {
        (void)sdhci_reset(host, SDHCI_RESET_DATA);
        host->line = SDHCI_FREE;
    }
    return true;
}

/* COMMANDS */

/* The low byte of the command register by the response: its length and checks, section 2.2.6. */
static uint32_t sdhci_response_bits(const struct sdhci_command *command)
{
    static const uint8_t bits[8] = {
        [SDHCI_R1] = SDHCI_RESPONSE_48 | SDHCI_CHECK_CRC | SDHCI_CHECK_INDEX,
        [SDHCI_R2] = SDHCI_RESPONSE_136 | SDHCI_CHECK_CRC,
        [SDHCI_R3] = SDHCI_RESPONSE_48,
        [SDHCI_R6] = SDHCI_RESPONSE_48 | SDHCI_CHECK_CRC | SDHCI_CHECK_INDEX,
        [SDHCI_R7] = SDHCI_RESPONSE_48 | SDHCI_CHECK_CRC | SDHCI_CHECK_INDEX,
    };

    return bits[(uint32_t)command->response & 7U] | (command->busy ? SDHCI_RESPONSE_48_BUSY : 0U);
}

/* Tells the controller of the data that follow: sections 2.2.2, 2.2.3 and 2.2.5. The caller sends CMD12, and the controller none by
 * itself. */
static void sdhci_announce(struct sdhci *host, const struct sdhci_command *command)
{
    const struct sdhci_data *data = &command->data;

    host->mode = data->direction == SDHCI_TO_HOST ? SDHCI_READ_TRANSFER : 0U;
    if (command->index == 18U || command->index == 25U) {
        host->mode |= SDHCI_SEVERAL_BLOCKS | (data->blocks != 0U ? SDHCI_COUNT_BLOCKS : 0U);
    }
    host->block_bytes = data->block_bytes;
    sdhci_put(host, SDHCI_CONTROL, host->power | (data->lines & 4U) >> 1 | (data->lines & 8U) << 2); /* bits 1 and 5 */
    sdhci_put(host, SDHCI_BLOCKS, data->blocks << 16 | data->block_bytes);
}

/* Whether a response came, came damaged, or none came in time. Errors of the data lines are no matter of the command. */
static enum sdhci_outcome sdhci_await_response(const struct sdhci *host, bool expected)
{
    uint32_t status;

    (void)sdhci_await(host, SDHCI_STATUS, SDHCI_COMMAND_STATUSES, 0);
    status = sdhci_get(host, SDHCI_STATUS) & SDHCI_COMMAND_STATUSES;
    if (status != SDHCI_COMMAND_COMPLETE) {
        (void)sdhci_reset(host, SDHCI_RESET_COMMAND);
    }
    if (!expected) {
        return SDHCI_SENT;
    }
    if (status == SDHCI_COMMAND_COMPLETE) {
        return SDHCI_ANSWERED;
    }
    return (status & SDHCI_COMMAND_DAMAGE) != 0U ? SDHCI_DAMAGED : SDHCI_TIMEOUT;
}

static void sdhci_read_response(const struct sdhci *host, enum sdhci_response response, struct sdhci_answer *answer)
{
    uint32_t word, i;

    answer->word = sdhci_get(host, SDHCI_RESPONSE);
    for (i = 0; response == SDHCI_R2 && i < 15U; i++) { /* bits 127..8 are in bits 119..0 of four words */
        word = sdhci_get(host, SDHCI_RESPONSE + (i & ~3U));
        answer->contents[14U - i] = (uint8_t)(word >> 8U * (i & 3U) & 0xFFU);
    }
}

/* What a command that was sent makes of the data lines and of the clock. */
static void sdhci_follow(struct sdhci *host, const struct sdhci_command *command, bool answered)
{
    bool data = command->data.direction != SDHCI_NO_DATA;

    if (command->index == 0U) { /* it ends all that went on */
        (void)sdhci_reset(host, SDHCI_RESET_DATA);
        host->line = SDHCI_FREE;
        host->wanted_khz = SDHCI_SLOW_KHZ;
    } else if (data && answered) {
        host->line = command->data.direction == SDHCI_TO_HOST ? SDHCI_READING : SDHCI_WRITING;
    } else if (data || command->busy) {
        host->line = answered && host->line == SDHCI_FREE ? SDHCI_BUSY : SDHCI_STALE;
        if (answered && command->index == 7U) {
            host->wanted_khz = SDHCI_FAST_KHZ;
        }
    }
}

/* The clock changes once the lines are at rest. */
static void sdhci_keep_pace(struct sdhci *host)
{
    uint32_t inhibited = sdhci_get(host, SDHCI_PRESENT_STATE) & (SDHCI_COMMAND_INHIBIT | SDHCI_DATA_INHIBIT);

    if (host->khz != host->wanted_khz && inhibited == 0U) {
        (void)sdhci_set_clock(host, host->wanted_khz);
    }
}

/* CMD12 goes out as it is, to a transfer that is still open: the data lines are reset behind it, once the card is no longer busy.
 * A command without data or busy leaves them alone. */
void sdhci_exchange(struct sdhci *host, const struct sdhci_command *command, struct sdhci_answer *answer)
{
    bool data = command->data.direction != SDHCI_NO_DATA, on_lines = data || command->busy;
    uint32_t bits = command->index << 8 | sdhci_response_bits(command);

    answer->outcome = SDHCI_TIMEOUT;
    answer->word = 0;
    if (command->index == 12U) {
        bits |= SDHCI_ABORT;
    } else if (on_lines && !sdhci_free_lines(host)) {
        return;
    }
    if (!sdhci_await(host, SDHCI_PRESENT_STATE, SDHCI_COMMAND_INHIBIT, SDHCI_COMMAND_INHIBIT)) {
        return;
    }
    sdhci_keep_pace(host);
    sdhci_put(host, SDHCI_STATUS, on_lines ? SDHCI_STATUSES : SDHCI_COMMAND_STATUSES);
    if (data) {
        sdhci_announce(host, command);
        bits |= SDHCI_DATA_PRESENT;
    }
    sdhci_put(host, SDHCI_ARGUMENT, command->argument);
    sdhci_put(host, SDHCI_COMMAND, bits << 16 | host->mode);
    answer->outcome = sdhci_await_response(host, command->response != SDHCI_NONE);
    if (answer->outcome == SDHCI_ANSWERED) {
        sdhci_read_response(host, command->response, answer);
    }
    sdhci_follow(host, command, answer->outcome == SDHCI_ANSWERED);
}

/* PHASES */

/* A phase that was cut leaves the lines to be reset. */
static bool sdhci_cut(struct sdhci *host)
{
    host->line = SDHCI_STALE;
    return false;
}

/* A controller that counts the blocks says when the last one is through, and the card no longer busy; then a time-out counts for
 * nothing, section 2.2.18. The last block of an open-ended write is out when DAT0 has been high for longer than a block takes: until
 * then CMD12 would cut it. */
static bool sdhci_end_phase(struct sdhci *host)
{
    bool open_ended = (host->mode & (SDHCI_SEVERAL_BLOCKS | SDHCI_COUNT_BLOCKS)) == SDHCI_SEVERAL_BLOCKS, well = true;
    uint32_t status;

    if (!open_ended) {
        (void)sdhci_await(host, SDHCI_STATUS, SDHCI_TRANSFER_COMPLETE | SDHCI_DATA_ERRORS, 0);
    } else if (host->line == SDHCI_WRITING) {
        well = sdhci_await_high(host, host->khz > SDHCI_SLOW_KHZ ? 6U : 100U);
    }
    status = sdhci_get(host, SDHCI_STATUS) & (SDHCI_TRANSFER_COMPLETE | (open_ended ? SDHCI_DATA_ERRORS : SDHCI_DATA_DAMAGE));
    if (!well || status != (open_ended ? 0U : SDHCI_TRANSFER_COMPLETE)) {
        return sdhci_cut(host);
    }
    host->line = open_ended ? host->line : SDHCI_FREE;
    return true;
}

bool sdhci_receive(struct sdhci *host, uint8_t *to, uint32_t bytes)
{
    uint32_t at, left = 0, word = 0;

    if (host->line != SDHCI_READING) {
        return false;
    }
    for (at = 0; at < bytes; at++) {
        if (left == 0U) {
            if (!sdhci_await(host, SDHCI_PRESENT_STATE, SDHCI_READ_ENABLE, 0)) {
                return sdhci_cut(host);
            }
            left = host->block_bytes;
        }
        word = (at & 3U) == 0U ? sdhci_get(host, SDHCI_BUFFER) : word >> 8;
        to[at] = (uint8_t)(word & 0xFFU);
        left--;
    }
    return sdhci_end_phase(host);
}

bool sdhci_give(struct sdhci *host, const uint8_t *from, uint32_t bytes)
{
    uint32_t at, left = 0, word = 0;

    if (host->line != SDHCI_WRITING) {
        return false;
    }
    for (at = 0; at < bytes; at++) {
        if (left == 0U) {
            if (!sdhci_await(host, SDHCI_PRESENT_STATE, SDHCI_WRITE_ENABLE, 0)) {
                return sdhci_cut(host);
            }
            left = host->block_bytes;
        }
        word = word >> 8 | (uint32_t)from[at] << 24;
        if ((at & 3U) == 3U) {
            sdhci_put(host, SDHCI_BUFFER, word);
        }
        left--;
    }
    return sdhci_end_phase(host);
}
