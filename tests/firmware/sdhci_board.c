#include "sdhci_board.h"

#include <stdio.h>
#include <string.h>

struct sdhci_model model;
struct sdhci host;
static bool halves; /* the port splits each word in halves, the low one first */

const char *test_name;
jmp_buf test_end;
char sort[128];

void expect(bool holds, const char *what)
{
    if (!holds) {
        printf("failed: %s, %s: %s\n", test_name, sort, what);
        longjmp(test_end, 1);
    }
}

void expect_no_rule_broken(void)
{
    uint32_t rule;

    for (rule = 0; rule < MODEL_RULES_COUNT; rule++)
        expect(model.broken[rule] == 0, model_rule_names[rule]);
}

/* THE PORT */

static bool is_split(uint32_t offset) { return halves && offset != 0x08 && offset != 0x20; }

static uint32_t read_register(void *board, uint32_t offset)
{
    struct sdhci_model *m = board;
    uint32_t low;

    if (!is_split(offset))
        return model_read(m, 4, offset);
    low = model_read(m, 2, offset);
    return low | model_read(m, 2, offset + 2) << 16;
}

static void write_register(void *board, uint32_t offset, uint32_t value)
{
    struct sdhci_model *m = board;

    if (!is_split(offset)) {
        model_write(m, 4, offset, value);
        return;
    }
    model_write(m, 2, offset, value & 0xFFFF);
    model_write(m, 2, offset + 2, value >> 16);
}

static uint32_t milliseconds(void *board) { return model_milliseconds(board); }

/* CONTROLLERS AND CARDS */

struct model_setup usual(void)
{
    struct model_setup setup = {.base_mhz = 50, .voltages = 1, .buffers = 1, .late_clocks = 2};

    setup.card.polls = 2;
    setup.card.program_ns = MILLISECONDS / 2;
    setup.card.erase_ns = 3 * MILLISECONDS;
    setup.give_up_ns = 2500 * MILLISECONDS;
    return setup;
}

/* The sorts of controllers and cards that most tests run beside. */
struct model_setup sort_of(uint32_t number)
{
    struct model_setup setup = usual();

    setup.card.emmc = number & 1;
    setup.card.bytes = number >> 1 & 1;
    setup.words_alone = number >> 2 & 1;
    setup.buffers = number >> 3 & 1 ? 2 : 1;
    setup.completes = number >> 4 & 1;
    setup.version_2 = number >> 5 & 1;
    return setup;
}

bool start(const struct model_setup *setup, uint32_t base_khz, bool soldered)
{
    snprintf(sort, sizeof sort, "%s, addresses in %s, %s, %u buffers, %s%u.00", setup->card.emmc ? "e.MMC" : "SD",
             setup->card.bytes ? "bytes" : "blocks", setup->words_alone ? "words alone" : "halves", (unsigned)setup->buffers,
             setup->completes ? "completes, " : "", setup->version_2 ? 2u : 3u);
    halves = !setup->words_alone;
    model_begin(&model, setup);
    memset(&host, 0xFF, sizeof host); /* the driver sets all but the port */
    host.port = (struct sdhci_port){read_register, write_register, milliseconds, &model, base_khz, soldered};
    return sdhci_start(&host);
}

/* COMMANDS */

struct sdhci_answer answer;

static bool exchange(uint32_t index, uint32_t argument, enum sdhci_response response, bool busy, struct sdhci_data data)
{
    struct sdhci_command command = {index, argument, response, busy, data};

    memset(&answer, 0xFF, sizeof answer);
    sdhci_exchange(&host, &command, &answer);
    return answer.outcome == (response == SDHCI_NONE ? SDHCI_SENT : SDHCI_ANSWERED);
}

bool send_plain(uint32_t index, uint32_t argument, enum sdhci_response response)
{
    struct sdhci_data data = {SDHCI_NO_DATA, 0, 0, 1};

    return exchange(index, argument, response, false, data);
}

bool send_busy(uint32_t index, uint32_t argument)
{
    struct sdhci_data data = {SDHCI_NO_DATA, 0, 0, 1};

    return exchange(index, argument, SDHCI_R1, true, data);
}

bool send_data(uint32_t index, uint32_t argument, enum sdhci_direction direction, uint32_t bytes, uint32_t blocks)
{
    struct sdhci_data data = {direction, bytes, blocks, model.card.lines};

    return exchange(index, argument, SDHCI_R1, false, data);
}

uint32_t address(uint32_t block) { return model.setup.card.bytes ? 512 * block : block; }

uint32_t rca(void) { return model.setup.card.emmc ? 1u << 16 : (uint32_t)CARD_ADDRESS << 16; }

enum card_state state(void) { return (enum card_state)(answer.word >> 9 & 15); }

static bool ask_conditions(void)
{
    uint32_t turn;

    for (turn = 0; turn < 10; turn++) {
        if (model.setup.card.emmc)
            send_plain(1, 0x40FF8080, SDHCI_R3);
        else if (send_plain(55, 0, SDHCI_R1))
            send_plain(41, 0x40FF8000, SDHCI_R3);
        if (answer.outcome == SDHCI_ANSWERED && answer.word >> 31)
            return true;
    }
    return false;
}

bool identify(void)
{
    return send_plain(0, 0, SDHCI_NONE) && (model.setup.card.emmc || (send_plain(8, 0x1AA, SDHCI_R7) && answer.word == 0x1AA)) && ask_conditions()
        && send_plain(2, 0, SDHCI_R2) && answer.contents[0] == 0x58 && answer.contents[14] == 0x2A
        && send_plain(3, 0x10000, model.setup.card.emmc ? SDHCI_R1 : SDHCI_R6);
}

bool bring_up(void)
{
    if (!identify() || !send_plain(9, rca(), SDHCI_R2) || !(send_busy(7, rca()) || send_busy(7, rca())) || !sdhci_await_ready(&host))
        return false;
    return send_plain(16, 512, SDHCI_R1) && send_plain(13, rca(), SDHCI_R1) && state() == CARD_TRAN;
}

void begin(const struct model_setup *setup)
{
    expect(start(setup, 0, false), "no start");
    expect(bring_up(), "no bring-up");
}

/* As a script does: until the card is in the transfer state and ready. */
bool recover(void)
{
    uint32_t turn;

    for (turn = 0; turn < 20; turn++) {
        if (!send_plain(13, rca(), SDHCI_R1))
            continue;
        if (state() == CARD_TRAN && (answer.word >> 8 & 1))
            return true;
        if (state() == CARD_DATA || state() == CARD_RCV)
            send_busy(12, 0);
        else
            sdhci_await_ready(&host);
    }
    return false;
}

/* BLOCKS */

uint8_t given[MOST * 512], taken[MOST * 512 + 4];

/* Blocks that differ, with one of ones alone, whose bits DAT0 does not show, at the end. */
void fill(uint32_t seed, uint32_t blocks)
{
    uint32_t i;

    for (i = 0; i < 512 * blocks; i++)
        given[i] = (uint8_t)(i / 512 + 1 == blocks ? 0xFF : i * 7 + i / 512 + seed);
}

bool is_stored(uint32_t block, uint32_t blocks) { return memcmp(model.card.blocks[block], given, 512 * blocks) == 0; }

bool write_blocks(uint32_t block, uint32_t blocks, bool told)
{
    bool several = blocks > 1, well;

    if (several && told && model.setup.card.emmc && block % 2 == 1 && !send_plain(23, blocks, SDHCI_R1))
        return false;
    if (!send_data(several ? 25 : 24, address(block), SDHCI_TO_CARD, 512, told ? blocks : 0))
        return false;
    well = sdhci_give(&host, given, 512 * blocks);
    if (several && model.card.left == CARD_OPEN)
        well = send_busy(12, 0) && well;
    return sdhci_await_ready(&host) && well;
}

bool read_blocks(uint32_t block, uint32_t blocks, bool told)
{
    bool several = blocks > 1, well;

    memset(taken, 0, sizeof taken);
    if (!send_data(several ? 18 : 17, address(block), SDHCI_TO_HOST, 512, told ? blocks : 0))
        return false;
    well = sdhci_receive(&host, taken, 512 * blocks);
    return (!several || send_busy(12, 0)) && well && memcmp(taken, model.card.blocks[block], 512 * blocks) == 0;
}
