/*
 * sdhci [TEST]: tries the sample driver beside the model of sdhci_model.h. Each test brings cards up behind controllers of several
 * sorts, and no rule of the model may be broken. A test ends at the first thing that is wrong, and prints a line; the status is
 * then 1.
 */
#include <stdio.h>
#include <string.h>

#include "sdhci_board.h"

/* TESTS: each begins a card, and looks at rules broken at the end */

static const struct { uint32_t base_mhz; bool version_2; } bases[] = {
    {50, false}, {200, false}, {255, false}, {104, false}, {3, false}, {26, false}, {50, true}, {52, true}, {63, true}, {25, true}, {10, true}, {1, true},
};

static void clocks(void)
{
    struct model_setup setup = usual();
    uint32_t i;

    for (i = 0; i < sizeof bases / sizeof *bases; i++) {
        setup.base_mhz = bases[i].base_mhz;
        setup.version_2 = bases[i].version_2;
        expect(start(&setup, 0, false), "no start");
        expect(model.khz <= 400 && model.khz >= (setup.version_2 ? 195u : 300u), "another clock than 400 kHz");
        expect(bring_up() && send_plain(13, rca(), SDHCI_R1), "no bring-up");
        expect(model.khz <= 25000 && model.khz >= (setup.base_mhz < 25 ? 1000 * setup.base_mhz : 12500u), "the clock of a selected card");
        expect(identify() && model.khz <= 400, "another clock than 400 kHz after CMD0");
        expect_no_rule_broken();
    }
}

/* Capabilities that tell nothing, as those of the BCM283x. */
static void no_capabilities(void)
{
    struct model_setup setup = usual();

    setup.untold = true;
    setup.base_mhz = 250;
    expect(!start(&setup, 0, false), "a start without a base clock");
    expect(start(&setup, 250000, false) && model.khz >= 300 && bring_up(), "no bring-up");
    expect_no_rule_broken();
}

static void voltages(void)
{
    struct model_setup setup = usual();

    for (setup.voltages = 1; setup.voltages < 4; setup.voltages++) {
        begin(&setup);
        expect_no_rule_broken();
    }
    setup.voltages = 4;
    expect(!start(&setup, 0, false) && !model.card.powered, "1.8 V for a card that is no soldered device");
    setup.card.emmc = setup.soldered = true;
    expect(start(&setup, 0, true) && bring_up(), "no bring-up at 1.8 V");
    setup.voltages = 0;
    expect(!start(&setup, 0, true), "a start without a voltage");
    expect_no_rule_broken();
}

static void detection(void)
{
    struct model_setup setup = usual();

    setup.absent = true;
    expect(!start(&setup, 0, false) && model.now < 100 * MILLISECONDS, "a start without a card, or none after a long time");
    setup.absent = false;
    setup.bounce_ns = 300 * MILLISECONDS;
    begin(&setup);
    setup.soldered = setup.card.emmc = true;
    expect(!start(&setup, 0, false), "a start with no card detected");
    expect(start(&setup, 0, true) && bring_up(), "no bring-up of a soldered device");
    expect_no_rule_broken();
}

/* The clock of the port goes from 2^32 - 1 to 0. */
static void wrapping(void)
{
    struct model_setup setup = usual();
    uint32_t before;

    setup.card.program_ns = 20 * MILLISECONDS;
    for (before = 1; before < 200; before += 9) {
        setup.first_ms = 0u - before;
        begin(&setup);
        fill(before, 2);
        expect(write_blocks(4, 2, true) && is_stored(4, 2) && read_blocks(4, 2, true), "no transfer");
        expect_no_rule_broken();
    }
}

static void try_transfers(bool told)
{
    uint32_t blocks, block;

    for (blocks = 1; blocks <= MOST; blocks *= 2)
        for (block = 8; block < 10; block++) {
            fill(blocks + block, blocks);
            expect(write_blocks(block, blocks, told), "a write was cut");
            expect(!model_is_busy(&model), "the card is busy after a write");
            expect(is_stored(block, blocks), "other blocks are stored");
            expect(read_blocks(block, blocks, told), "a read was cut, or other blocks came");
            expect(recover(), "no transfer state");
        }
}

/* Transfers whose command tells how many blocks there are. */
static void told(void)
{
    uint32_t number;

    for (number = 0; number < SORTS; number++) {
        struct model_setup setup = sort_of(number);

        begin(&setup);
        try_transfers(true);
        expect_no_rule_broken();
    }
}

/* Transfers that go on until CMD12, also where the card is busy for long after a block. */
static void open_ended(void)
{
    static const uint64_t busy[] = {0, 1000, 7000000, 200000000};
    uint32_t number, i;

    for (number = 0; number < SORTS; number++)
        for (i = 0; i < sizeof busy / sizeof *busy; i++) {
            struct model_setup setup = sort_of(number);

            setup.card.program_ns = busy[i];
            setup.late_clocks = 8;
            begin(&setup);
            if (i < 3)
                try_transfers(false);
            expect(model.now < 2000 * MILLISECONDS, "open-ended transfers take a long time");
            fill(i, 3);
            expect(write_blocks(2, 3, false) && is_stored(2, 3), "an open-ended write lost a block");
            expect_no_rule_broken();
        }
}

static bool change_lines(uint32_t lines)
{
    if (model.setup.card.emmc)
        return send_busy(6, 0x03B70000u | (lines == 4 ? 0x100u : lines == 8 ? 0x200u : 0u)) && sdhci_await_ready(&host);
    return send_plain(55, rca(), SDHCI_R1) && send_plain(6, lines == 4 ? 2 : 0, SDHCI_R1);
}

static void widths(void)
{
    uint32_t number, lines;

    for (number = 0; number < SORTS; number++) {
        struct model_setup setup = sort_of(number);

        begin(&setup);
        for (lines = setup.card.emmc ? 8 : 4; lines > 0; lines = lines == 8 ? 4 : lines == 4 ? 1 : 0) {
            expect(change_lines(lines) && model.card.lines == lines, "the lines of the card");
            try_transfers(lines == 4);
        }
        expect_no_rule_broken();
    }
}

static bool read_register_of_card(uint32_t index, uint32_t bytes)
{
    uint32_t i;

    memset(taken, 0, sizeof taken);
    if (!model.setup.card.emmc && !send_plain(55, rca(), SDHCI_R1))
        return false;
    if (!send_data(index, model.setup.card.emmc ? 0 : rca(), SDHCI_TO_HOST, bytes, 1) || !sdhci_receive(&host, taken, bytes))
        return false;
    for (i = 0; i < bytes; i++)
        if (taken[i] != (uint8_t)(0xA0 + i))
            return false;
    return taken[bytes] == 0;
}

static void registers(void)
{
    uint32_t number;

    for (number = 0; number < SORTS; number++) {
        struct model_setup setup = sort_of(number);

        begin(&setup);
        if (setup.card.emmc)
            expect(read_register_of_card(8, 512), "the EXT_CSD");
        else
            expect(read_register_of_card(51, 8) && read_register_of_card(13, 64), "the SCR or the SD status");
        expect(read_blocks(3, 1, true), "no read after a register");
        expect_no_rule_broken();
    }
}

static bool erase_blocks(uint32_t from, uint32_t to)
{
    uint32_t first = model.setup.card.emmc ? 35 : 32;

    return send_plain(first, address(from), SDHCI_R1) && send_plain(first + 1, address(to), SDHCI_R1) && send_busy(38, 0);
}

/* Busy comes late, much later than a card may take; a wait does not end before it has come and gone. */
static void late_busy(void)
{
    uint32_t number;

    for (number = 0; number < SORTS; number++) {
        struct model_setup setup = sort_of(number);

        setup.late_clocks = 2000;
        setup.card.select_ns = 2 * MILLISECONDS;
        begin(&setup);
        expect(erase_blocks(2, 5) && sdhci_await_ready(&host) && !model_is_busy(&model), "a wait after CMD38 ended in busy");
        if (setup.card.emmc)
            expect(send_busy(6, 0x03B70000) && sdhci_await_ready(&host) && !model_is_busy(&model), "a wait after CMD6 ended in busy");
        fill(1, 2);
        expect(write_blocks(7, 2, false) && !model_is_busy(&model) && is_stored(7, 2), "a wait after CMD12 ended in busy");
        expect(send_plain(7, 0, SDHCI_NONE) && send_busy(7, rca()) && sdhci_await_ready(&host) && !model_is_busy(&model), "a wait after CMD7 ended in busy");
        expect_no_rule_broken();
    }
}

/* CMD13 while the card is busy: it is answered, and nothing is reset; a wait, or a command for the data lines, then waits for busy. */
static void status_in_busy(void)
{
    uint32_t number, asked;

    for (number = 0; number < SORTS; number++) {
        struct model_setup setup = sort_of(number);

        setup.card.program_ns = 4 * MILLISECONDS;
        setup.card.select_ns = 5 * MILLISECONDS;
        expect(start(&setup, 0, false) && identify() && send_busy(7, rca()) && send_plain(13, rca(), SDHCI_R1), "no status after CMD7");
        expect(sdhci_await_ready(&host) && !model_is_busy(&model), "a wait after CMD7 ended in busy");
        expect(erase_blocks(2, 5), "no erase");
        for (asked = 0; asked < 3; asked++)
            expect(send_plain(13, rca(), SDHCI_R1) && state() == CARD_PRG, "no status of a busy card");
        expect(sdhci_await_ready(&host) && !model_is_busy(&model), "a wait after CMD13 ended in busy");
        fill(1, 3);
        expect(erase_blocks(2, 5) && send_plain(13, rca(), SDHCI_R1) && write_blocks(2, 3, true) && is_stored(2, 3), "no write after an erase");
        expect(send_data(25, address(20), SDHCI_TO_CARD, 512, 3) && sdhci_give(&host, given, 512 * 3) && send_busy(12, 0), "no write");
        expect(send_plain(13, rca(), SDHCI_R1) && state() == CARD_PRG, "no status of a programming card");
        expect(read_blocks(20, 3, false) && is_stored(20, 3), "no read after a write");
        expect_no_rule_broken();
    }
}

/* A block may be programmed for 250 ms and more. */
static void slow_blocks(void)
{
    uint32_t number;

    for (number = 0; number < SORTS; number += 3) {
        struct model_setup setup = sort_of(number);

        setup.card.program_ns = 490 * MILLISECONDS;
        begin(&setup);
        fill(number, 3);
        expect(write_blocks(2, 1, true) && write_blocks(2, 3, true) && is_stored(2, 3), "a slow write was cut");
        expect_no_rule_broken();
    }
}

/* An erase that takes longer than a wait: waits are late, and a command for the data lines is not sent, until it has ended. */
static void long_erase(void)
{
    uint32_t number, waits;

    for (number = 0; number < SORTS; number++) {
        struct model_setup setup = sort_of(number);

        setup.card.erase_ns = 7000 * MILLISECONDS;
        setup.give_up_ns = (number & 1 ? 100 : 9000) * MILLISECONDS; /* the controller may give up before */
        begin(&setup);
        expect(erase_blocks(2, 5), "no erase");
        expect(number & 2 || (!send_data(17, address(1), SDHCI_TO_HOST, 512, 1) && answer.outcome == SDHCI_TIMEOUT), "a read while the card erases");
        for (waits = 0; waits < 9 && !sdhci_await_ready(&host); waits++)
            expect(send_plain(13, rca(), SDHCI_R1) && state() == CARD_PRG, "no status of a card that erases");
        expect(waits < 9 && !model_is_busy(&model), "a wait ended in busy");
        expect(read_blocks(1, 1, true), "no read after an erase");
        expect_no_rule_broken();
    }
}

static bool write_all(uint32_t block, bool is_told) { return write_blocks(block, 3, is_told) && recover() && write_blocks(block, 1, true); }

static bool read_all(uint32_t block, bool is_told) { return read_blocks(block, 3, is_told) && recover() && read_blocks(block, 1, true); }

static bool erase_all(uint32_t block, bool is_told)
{
    (void)is_told;
    return erase_blocks(block, block + 2) && sdhci_await_ready(&host);
}

/* Tries again after a recovery, as a script does, three times. */
static bool comes_well(bool (*operation)(uint32_t, bool), bool is_told)
{
    bool well = false;
    uint32_t turn;

    for (turn = 0; turn < 3 && !well; turn++) {
        well = operation(5, is_told);
        expect(recover(), "no transfer state");
    }
    return well;
}

/* A command is lost, or its answer is lost or damaged: tried again, all comes well, and each rule is kept. */
static void try_mishap(const struct model_setup *setup)
{
    bool is_told = setup->buffers == 2, well = false;
    uint32_t turn;

    expect(start(setup, 0, false), "no start");
    snprintf(sort + strlen(sort), sizeof sort - strlen(sort), ", mishap %u of CMD%u", (unsigned)setup->mishap.kind, (unsigned)setup->mishap.index);
    for (turn = 0; turn < 3 && !well; turn++)
        well = bring_up();
    expect(well, "no bring-up in three tries");
    fill(setup->mishap.index, 3);
    expect(comes_well(write_all, is_told) && is_stored(5, 3), "no write in three tries");
    expect(comes_well(read_all, is_told), "no read in three tries");
    memset(given, 0, sizeof given);
    expect(comes_well(erase_all, is_told) && is_stored(5, 3), "no erase in three tries");
    expect_no_rule_broken();
}

static void damaged_answers(void)
{
    static const uint32_t indices[] = {1, 2, 3, 7, 8, 9, 12, 13, 16, 17, 18, 24, 25, 32, 36, 38, 41, 55};
    uint32_t number, kind, i, skip;

    for (number = 0; number < SORTS; number += 3)
        for (kind = MODEL_COMMAND_LOST; kind <= MODEL_INDEX; kind++)
            for (i = 0; i < sizeof indices / sizeof *indices; i++)
                for (skip = 0; skip < 3; skip++) {
                    struct model_setup setup = sort_of(number);

                    setup.mishap = (struct model_mishap){(enum model_mishap_kind)kind, indices[i], skip, 0};
                    try_mishap(&setup);
                }
}

/* Whether a response is damaged or missing is told; the two do the same. */
static void outcomes(void)
{
    uint32_t kind;

    for (kind = MODEL_COMMAND_LOST; kind <= MODEL_INDEX; kind++) {
        struct model_setup setup = usual();
        uint64_t before;

        setup.mishap.kind = (enum model_mishap_kind)kind;
        setup.mishap.index = 17;
        begin(&setup);
        before = model.now;
        send_data(17, address(1), SDHCI_TO_HOST, 512, 1);
        expect(answer.outcome == (kind <= MODEL_ANSWER_LOST ? SDHCI_TIMEOUT : SDHCI_DAMAGED), "another outcome");
        expect(!sdhci_receive(&host, taken, 512) && model.now < before + 5 * MILLISECONDS, "a phase without an answer");
        expect(recover() && read_blocks(1, 1, true), "no read afterwards");
        expect_no_rule_broken();
    }
}

/* A block with a wrong CRC cuts a transfer. CMD12 ends it, and then it is done again. */
static void cut_transfers(void)
{
    uint32_t number, block, way;

    for (number = 0; number < SORTS; number++)
        for (block = 0; block < 4; block++)
            for (way = 0; way < 4; way++) {
                struct model_setup setup = sort_of(number);
                bool writes = way & 1, is_told = way >> 1;

                setup.mishap = (struct model_mishap){MODEL_BLOCK_CRC, writes ? 25 : 18, 0, block};
                setup.card.program_ns = 3 * MILLISECONDS;
                begin(&setup);
                fill(block, 4);
                expect(!(writes ? write_blocks(8, 4, is_told) : read_blocks(8, 4, is_told)), "a damaged block was not seen");
                expect(!(writes ? sdhci_give(&host, given, 512) : sdhci_receive(&host, taken, 512)), "a phase after a cut");
                expect(recover(), "no transfer state after a cut");
                expect(write_blocks(8, 4, is_told) && is_stored(8, 4) && read_blocks(8, 4, is_told), "no transfer after a cut");
                expect_no_rule_broken();
            }
}

/* CMD13 between a command and its phase takes nothing away: neither a block nor its error. */
static void status_before_phase(void)
{
    uint32_t number;

    for (number = 0; number < SORTS; number++) {
        struct model_setup setup = sort_of(number);

        setup.mishap = (struct model_mishap){MODEL_BLOCK_CRC, 17, 1, 0};
        begin(&setup);
        expect(send_data(17, address(1), SDHCI_TO_HOST, 512, 1) && send_plain(13, rca(), SDHCI_R1) && sdhci_receive(&host, taken, 512), "no block");
        expect(send_data(17, address(1), SDHCI_TO_HOST, 512, 1), "no answer");
        model_pass(&model, 5 * MILLISECONDS);
        expect(send_plain(13, rca(), SDHCI_R1) && !sdhci_receive(&host, taken, 512), "a damaged block was not seen");
        expect(recover() && read_blocks(1, 1, true), "no read afterwards");
        expect_no_rule_broken();
    }
}

/* No more blocks come, and the controller gives up. Its error is no error of the commands that follow. */
static void no_block(void)
{
    uint32_t number, asked;

    for (number = 0; number < SORTS; number++) {
        struct model_setup setup = sort_of(number);

        setup.give_up_ns = 50 * MILLISECONDS;
        begin(&setup);
        expect(send_data(18, address(CARD_BLOCKS - 2), SDHCI_TO_HOST, 512, number & 8 ? 3 : 0), "no answer to CMD18");
        expect(!sdhci_receive(&host, taken, 512 * 3), "blocks behind the last one");
        for (asked = 0; asked < 3; asked++)
            expect(send_plain(13, rca(), SDHCI_R1) && state() == CARD_DATA, "no status of a card that sends");
        expect(recover() && read_blocks(CARD_BLOCKS - 2, 2, true), "no read afterwards");
        expect_no_rule_broken();
    }
}

/* A script may leave a phase out. */
static void left_out(void)
{
    uint32_t number;

    for (number = 0; number < SORTS; number++) {
        struct model_setup setup = sort_of(number);

        begin(&setup);
        fill(number, 2);
        expect(!sdhci_receive(&host, taken, 512) && !sdhci_give(&host, given, 512), "a phase without a command");
        expect(send_data(17, address(1), SDHCI_TO_HOST, 512, 1) && recover() && read_blocks(2, 1, true), "no read after a read left out");
        expect(send_data(24, address(1), SDHCI_TO_CARD, 512, 1) && recover() && write_blocks(2, 1, true), "no write after a write left out");
        expect(send_data(25, address(4), SDHCI_TO_CARD, 512, 2) && recover() && write_blocks(4, 2, false), "no write after a write left out");
        expect(is_stored(4, 2), "other blocks are stored");
        expect(send_data(18, address(4), SDHCI_TO_HOST, 512, 0) && recover() && read_blocks(4, 2, true), "no read after a read left out");
        expect_no_rule_broken();
    }
}

/* A script may begin anew in the midst of all this. */
static void begun_anew(void)
{
    uint32_t number, way;

    for (number = 0; number < SORTS; number++)
        for (way = 0; way < 4; way++) {
            struct model_setup setup = sort_of(number);

            setup.card.program_ns = 20 * MILLISECONDS;
            begin(&setup);
            fill(number, 2);
            if (way == 0)
                expect(send_data(25, address(4), SDHCI_TO_CARD, 512, 0) && sdhci_give(&host, given, 512), "no write");
            else if (way == 1)
                expect(send_data(18, address(4), SDHCI_TO_HOST, 512, 5) && sdhci_receive(&host, taken, 512) == false, "half a read");
            else
                expect(erase_blocks(2, 5), "no erase");
            expect(bring_up(), "no second bring-up");
            expect(write_blocks(4, 2, true) && is_stored(4, 2) && read_blocks(4, 2, true), "no transfer");
            expect_no_rule_broken();
        }
}

/* THE MODEL: it notices each rule that is broken */

static bool noticed[MODEL_RULES_COUNT];

static void poke(uint32_t offset, uint32_t value) { model_write(&model, 4, offset, value); }

/* Writes the command register, and lets the command end. */
static void poke_command(uint32_t bits)
{
    poke(0x0C, bits);
    model_pass(&model, MILLISECONDS);
}

static void note(void)
{
    uint32_t rule;

    for (rule = 0; rule < MODEL_RULES_COUNT; rule++)
        noticed[rule] = noticed[rule] || model.broken[rule] != 0;
}

/* Power on, and a clock with this divider, without a pause between. */
static void poke_power(const struct model_setup *setup, uint32_t clock)
{
    model_begin(&model, setup);
    poke(0x28, 0xF00);
    poke(0x2C, clock | 1);
    model_pass(&model, MILLISECONDS / 2);
    poke(0x2C, clock | 5);
}

static void break_access(struct model_setup setup)
{
    setup.words_alone = true;
    model_begin(&model, &setup);
    model_read(&model, 2, 1);
    model_write(&model, 2, 0x30, 1);
    model_write(&model, 2, 0x0C, 0);
    poke(0x28, 0);
    poke(0x28, 0xF00);
    poke(0x28, 0xB00);
    note();
}

static void break_clock(struct model_setup setup)
{
    poke_power(&setup, 0x100);
    poke(0x2C, 0x0005);
    poke_command(0);
    model_pass(&model, MILLISECONDS);
    poke(0x2C, 0x0005);
    poke(0x34, 0x01FF01FF);
    poke_command(0);
    poke(0x0C, 8u << 24 | 2u << 16);
    model_read(&model, 4, 0x10);
    poke(0x0C, 8u << 24 | 2u << 16);
    poke(0x2C, 0x0001);
    note();
    setup.version_2 = true;
    poke_power(&setup, 0x300);
    note();
}

static void break_transfer(const struct model_setup *setup)
{
    uint32_t word;

    begin(setup);
    model_pass(&model, MILLISECONDS);
    poke(0x08, rca());
    poke_command(13u << 24 | 2u << 16);
    poke(0x08, 0);
    poke_command(17u << 24 | 0x1Au << 16);
    model_read(&model, 4, 0x20);
    poke(0x20, 0);
    note();
    begin(setup);
    expect(send_data(25, 0, SDHCI_TO_CARD, 512, 0), "no answer to CMD25");
    model_pass(&model, MILLISECONDS);
    poke(0x04, 8);
    poke_command(17u << 24 | 0x3Au << 16 | host.mode);
    for (word = 0; word < 128; word++)
        poke(0x20, word);
    poke(0x2C, host.clock | 1u << 26);
    note();
    begin(setup);
    expect(erase_blocks(2, 5), "no erase");
    poke(0x2C, host.clock | 1u << 26);
    note();
}

static void rules(void)
{
    struct model_setup setup = usual();
    uint32_t rule;

    break_access(setup);
    break_clock(setup);
    break_transfer(&setup);
    for (rule = 0; rule < MODEL_RULES_COUNT; rule++)
        expect(noticed[rule], model_rule_names[rule]);
}

static const struct { const char *name; void (*run)(void); } tests[] = {
    {"rules", rules},
    {"clocks", clocks},
    {"no capabilities", no_capabilities},
    {"voltages", voltages},
    {"detection", detection},
    {"wrapping", wrapping},
    {"told", told},
    {"open-ended", open_ended},
    {"widths", widths},
    {"registers", registers},
    {"late busy", late_busy},
    {"status in busy", status_in_busy},
    {"slow blocks", slow_blocks},
    {"long erase", long_erase},
    {"damaged answers", damaged_answers},
    {"outcomes", outcomes},
    {"cut transfers", cut_transfers},
    {"status before phase", status_before_phase},
    {"no block", no_block},
    {"left out", left_out},
    {"begun anew", begun_anew},
};

static bool is_passed(uint32_t test)
{
    test_name = tests[test].name;
    if (setjmp(test_end) != 0)
        return false;
    tests[test].run();
    return true;
}

int main(int count, char **arguments)
{
    unsigned failed = 0, passed = 0;
    uint32_t i;

    for (i = 0; i < sizeof tests / sizeof *tests; i++)
        if (count < 2 || strcmp(arguments[1], tests[i].name) == 0)
            *(is_passed(i) ? &passed : &failed) += 1;
    printf("sdhci: %u passed, %u failed\n", passed, failed);
    return failed != 0;
}
