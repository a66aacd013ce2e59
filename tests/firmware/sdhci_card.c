#include "sdhci_card.h"

#include <string.h>

enum { ADDRESS_OUT_OF_RANGE = 31, READY_FOR_DATA = 8, APP_CMD = 5 };

static const uint8_t cid[15] = {0x58, 0x53, 0x44, 0x56, 0x20, 0x21, 0x22, 0x23, 0x24, 0x25, 0x26, 0x27, 0x28, 0x29, 0x2A};
static const uint8_t csd[15] = {0x40, 0x0E, 0x00, 0x32, 0x5B, 0x59, 0x00, 0x00, 0x7F, 0xFF, 0x7F, 0x80, 0x0A, 0x40, 0x00};

void card_power(struct card *card, bool on)
{
    card->state = CARD_IDLE;
    card->powered = on;
    card->selected = card->application = false;
    card->rca = card->preset = card->left = card->register_bytes = 0;
    card->lines = 1;
    card->polls = card->setup.polls;
    card->busy_from = card->busy_until = 0;
}

static uint32_t status_of(const struct card *card, uint64_t at)
{
    bool ready = card->state != CARD_PRG && at >= card->busy_until;

    return (uint32_t)card->state << 9 | (ready ? 1u << READY_FOR_DATA : 0u) | (card->application ? 1u << APP_CMD : 0u);
}

static void answer_status(const struct card *card, uint64_t at, struct card_answer *answer)
{
    answer->format = 1;
    answer->word = status_of(card, at);
}

static void be_busy(struct card *card, uint64_t from, uint64_t nanoseconds)
{
    if (nanoseconds != 0) {
        card->busy_from = from;
        card->busy_until = from + nanoseconds;
    }
}

/* An R1b, and what the card then does. */
static void work(struct card *card, uint64_t at, uint64_t busy_at, uint64_t nanoseconds, struct card_answer *answer)
{
    answer_status(card, at, answer);
    answer->busy = true;
    be_busy(card, busy_at, nanoseconds);
    if (nanoseconds != 0)
        card->state = CARD_PRG;
}

static void answer_conditions(struct card *card, struct card_answer *answer)
{
    bool ready = card->polls == 0;

    answer->format = 3;
    answer->word = 0x00FF8000u | (card->setup.emmc ? 0x80u : 0u);
    if (ready) {
        answer->word |= 1u << 31 | (card->setup.bytes ? 0u : 1u << 30);
        card->state = CARD_READY;
    } else {
        card->polls--;
    }
}

static void answer_register(struct card *card, const uint8_t *contents, struct card_answer *answer)
{
    answer->format = 2;
    memcpy(answer->contents, contents, sizeof answer->contents);
    if (card->state == CARD_READY)
        card->state = CARD_IDENT;
}

static void take_address(struct card *card, uint32_t argument, uint64_t at, struct card_answer *answer)
{
    card->rca = card->setup.emmc ? argument >> 16 : CARD_ADDRESS;
    answer_status(card, at, answer);
    if (!card->setup.emmc) {
        answer->format = 6;
        answer->word |= card->rca << 16;
    }
    card->state = CARD_STBY;
}

static void select_card(struct card *card, uint32_t argument, uint64_t at, uint64_t busy_at, struct card_answer *answer)
{
    if (argument >> 16 != card->rca) {
        if (card->state == CARD_TRAN)
            card->state = CARD_STBY;
        return;
    }
    if (card->state != CARD_STBY)
        return;
    answer_status(card, at, answer);
    answer->busy = true;
    card->state = CARD_TRAN;
    card->selected = true;
    be_busy(card, busy_at, card->setup.select_ns);
}

static void begin_register(struct card *card, uint32_t bytes, uint64_t at, struct card_answer *answer)
{
    answer_status(card, at, answer);
    card->register_bytes = answer->to_host = bytes;
    card->left = 1;
    card->state = CARD_DATA;
}

static uint32_t block_of(const struct card *card, uint32_t argument)
{
    return card->setup.bytes ? argument / CARD_BLOCK : argument;
}

/* CMD17, CMD18, CMD24, CMD25 */
static void begin_blocks(struct card *card, uint32_t index, uint32_t argument, uint64_t at, struct card_answer *answer)
{
    bool several = index == 18 || index == 25, to_host = index < 20;

    answer_status(card, at, answer);
    if (block_of(card, argument) >= CARD_BLOCKS || (card->setup.bytes && argument % CARD_BLOCK != 0)) {
        answer->word |= 1u << ADDRESS_OUT_OF_RANGE;
        return;
    }
    card->next = block_of(card, argument);
    card->left = !several ? 1 : card->preset != 0 ? card->preset : CARD_OPEN;
    card->preset = card->register_bytes = 0;
    card->state = to_host ? CARD_DATA : CARD_RCV;
    *(to_host ? &answer->to_host : &answer->to_card) = CARD_BLOCK;
}

static void stop(struct card *card, uint64_t at, uint64_t busy_at, struct card_answer *answer)
{
    if (card->state == CARD_RCV) {
        work(card, at, busy_at, card->setup.program_ns, answer);
        if (card->setup.program_ns == 0)
            card->state = CARD_TRAN;
    } else if (card->state == CARD_DATA) {
        answer_status(card, at, answer);
        answer->busy = true;
        card->state = CARD_TRAN;
    }
}

static void erase(struct card *card)
{
    uint32_t block;

    for (block = card->erase_from; block <= card->erase_to && block < CARD_BLOCKS; block++)
        memset(card->blocks[block], 0, CARD_BLOCK);
}

static void change_mode(struct card *card, uint32_t argument, uint64_t at, uint64_t busy_at, struct card_answer *answer)
{
    static const uint32_t lines[3] = {1, 4, 8};

    work(card, at, busy_at, 50000, answer);
    if ((argument & 0xFFFF0000u) == 0x03B70000u && (argument >> 8 & 0xFF) < 3)
        card->lines = lines[argument >> 8 & 0xFF];
}

static void take_application(struct card *card, uint32_t index, uint32_t argument, uint64_t at, struct card_answer *answer)
{
    bool transfer = card->state == CARD_TRAN;

    if (index == 41 && card->state == CARD_IDLE)
        answer_conditions(card, answer);
    else if (index == 6 && transfer) {
        answer_status(card, at, answer);
        card->lines = argument == 2 ? 4 : 1;
    } else if ((index == 13 || index == 51) && transfer)
        begin_register(card, index == 13 ? 64 : 8, at, answer);
    card->application = false;
}

/* Commands before the card is selected. */
static bool take_unselected(struct card *card, uint32_t index, uint32_t argument, uint64_t at, struct card_answer *answer)
{
    bool emmc = card->setup.emmc;

    if (index == 1 && emmc && card->state == CARD_IDLE)
        answer_conditions(card, answer);
    else if (index == 8 && !emmc && card->state == CARD_IDLE) {
        answer->format = 7;
        answer->word = argument & 0xFFF;
    } else if (index == 2 && card->state == CARD_READY)
        answer_register(card, cid, answer);
    else if (index == 3 && card->state == CARD_IDENT)
        take_address(card, argument, at, answer);
    else if ((index == 9 || index == 10) && card->state == CARD_STBY)
        answer_register(card, index == 9 ? csd : cid, answer);
    else
        return false;
    return true;
}

static void take_selected(struct card *card, uint32_t index, uint32_t argument, uint64_t at, uint64_t busy_at, struct card_answer *answer)
{
    bool emmc = card->setup.emmc;

    if (index == 16 || (index == 23 && emmc) || (emmc ? index == 35 || index == 36 : index == 32 || index == 33)) {
        answer_status(card, at, answer);
        card->preset = index == 23 ? argument : 0;
        card->erase_from = index == 32 || index == 35 ? block_of(card, argument) : card->erase_from;
        card->erase_to = index == 33 || index == 36 ? block_of(card, argument) : card->erase_to;
    } else if (index == 17 || index == 18 || index == 24 || index == 25) {
        begin_blocks(card, index, argument, at, answer);
    } else if (index == 38) {
        erase(card);
        work(card, at, busy_at, card->setup.erase_ns, answer);
    } else if (index == 6 && emmc) {
        change_mode(card, argument, at, busy_at, answer);
    } else if (index == 8 && emmc) {
        begin_register(card, CARD_BLOCK, at, answer);
    }
}

void card_take(struct card *card, uint32_t index, uint32_t argument, uint64_t at, uint64_t busy_at, struct card_answer *answer)
{
    *answer = (struct card_answer){0};
    if (!card->powered)
        return;
    if (index == 0)
        card_power(card, true);
    else if (card->application && (index == 6 || index == 13 || index == 41 || index == 51))
        take_application(card, index, argument, at, answer);
    else if (index == 55 && !card->setup.emmc && (card->state == CARD_IDLE || card->state == CARD_TRAN)) {
        card->application = true;
        answer_status(card, at, answer);
    } else if (index == 13 && card->state >= CARD_STBY)
        answer_status(card, at, answer);
    else if (index == 7)
        select_card(card, argument, at, busy_at, answer);
    else if (index == 12)
        stop(card, at, busy_at, answer);
    else if (!take_unselected(card, index, argument, at, answer) && card->state == CARD_TRAN)
        take_selected(card, index, argument, at, busy_at, answer);
}

static void count_block(struct card *card)
{
    card->next++;
    if (card->left != CARD_OPEN)
        card->left--;
}

bool card_send(struct card *card, uint8_t *block)
{
    uint32_t i;

    if (card->state != CARD_DATA || card->left == 0 || (card->register_bytes == 0 && card->next >= CARD_BLOCKS))
        return false;
    for (i = 0; i < card->register_bytes; i++)
        block[i] = (uint8_t)(0xA0 + i);
    if (card->register_bytes == 0)
        memcpy(block, card->blocks[card->next], CARD_BLOCK);
    count_block(card);
    if (card->left == 0)
        card->state = CARD_TRAN;
    return true;
}

void card_drain(struct card *card)
{
    if (card->state == CARD_DATA && card->left != CARD_OPEN)
        card->state = CARD_TRAN;
}

void card_receive(struct card *card, const uint8_t *block, bool damaged, uint64_t at, uint64_t busy_at)
{
    if (card->state != CARD_RCV || card->left == 0 || card->next >= CARD_BLOCKS)
        return;
    if (damaged) {
        if (card->left != CARD_OPEN)
            card->state = CARD_TRAN;
        return;
    }
    memcpy(card->blocks[card->next], block, CARD_BLOCK);
    count_block(card);
    be_busy(card, busy_at, card->setup.program_ns);
    if (card->left == 0)
        card->state = card->busy_until > at ? CARD_PRG : CARD_TRAN;
}

void card_ready(struct card *card)
{
    if (card->state == CARD_PRG)
        card->state = CARD_TRAN;
}
