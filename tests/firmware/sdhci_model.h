/*
 * A model of an SDHCI controller (SD Host Controller Simplified Specification, version 3.00) with one card behind it. A driver
 * reaches it by reads and writes of registers and by its clock. The model counts the rules that the driver breaks, each by its name.
 *
 * Time passes with each access, and with each call for the time; more of it where a driver only waits, so that tests end. Blocks take time on the data lines, a card is busy for a time, and pulls DAT0 low some clocks after
 * its answer. The card takes what is needed for bring-up, reads, writes, erases and registers; it is no judge of a script.
 */
#ifndef SDHCI_MODEL_H
#define SDHCI_MODEL_H
#include <stdbool.h>
#include <stdint.h>

#include "sdhci_card.h"

/* The rules: a name in C, and what is said of a driver that breaks one. */
#define MODEL_RULES(RULE)                                                                               \
    RULE(ACCESS, "an access that no register has")                                                      \
    RULE(RESENT, "a write of the transfer mode alone sent the last command again")                      \
    RULE(CLEARED, "a write to one status register cleared bits of the other")                           \
    RULE(COMMAND_INHIBITED, "a command was written while Command Inhibit (CMD) was set")                \
    RULE(DATA_INHIBITED, "a command for the data lines was written while Command Inhibit (DAT) was set") \
    RULE(OLD_STATUS, "a command was sent while the status of an earlier one was still set")             \
    RULE(NO_CLOCK, "a command was sent without power or clock")                                         \
    RULE(BLINK, "power was off for less than 1 ms")                                                     \
    RULE(EARLY, "the first command came before 1 ms and 74 clocks with power")                          \
    RULE(IDENTIFICATION, "the clock was above 400 kHz before the card was selected")                    \
    RULE(FAST, "the clock was above 25 MHz")                                                            \
    RULE(RUNNING, "the clock was changed while it went to the card")                                    \
    RULE(STOPPED, "the clock was stopped during a command or a transfer")                               \
    RULE(UNSTABLE, "the clock went to the card before it was stable")                                   \
    RULE(DIVIDER, "a divider that a controller of version 2.00 does not have")                          \
    RULE(VOLTAGE, "a voltage that the slot or the card does not have")                                  \
    RULE(EARLY_RESPONSE, "a response was read before it was there")                                     \
    RULE(UNCHECKED, "a response was not checked")                                                       \
    RULE(UNTOLD, "the controller was not told of the data or of the busy signal of a command")          \
    RULE(CHANGED, "block size, block count, transfer mode or data lines were changed during a transfer") \
    RULE(NO_ROOM, "the buffer was written without room")                                                \
    RULE(NO_BLOCK, "the buffer was read without a block")                                               \
    RULE(LOST_BLOCK, "a block in the buffer was thrown away")                                           \
    RULE(RESET_OPEN, "the data line was reset before CMD12 ended the transfer")                         \
    RULE(RESET_BUSY, "the data line was reset while the card was busy")

#define MODEL_NAME(name, text) MODEL_##name,
enum model_rule { MODEL_RULES(MODEL_NAME) MODEL_RULES_COUNT };
#undef MODEL_NAME

/* What goes wrong with a command, or with a block of the transfer that it begins. */
enum model_mishap_kind { MODEL_NOTHING, MODEL_COMMAND_LOST, MODEL_ANSWER_LOST, MODEL_CRC, MODEL_END_BIT, MODEL_INDEX, MODEL_BLOCK_CRC };

struct model_mishap {
    enum model_mishap_kind kind;
    uint32_t index; /* of the command */
    uint32_t skip;  /* so many commands of this index go well before */
    uint32_t block; /* MODEL_BLOCK_CRC: which block of the transfer, from 0 on */
};

struct model_setup {
    struct card_setup card;
    bool words_alone;      /* the registers take accesses of 32 bits alone */
    bool soldered;         /* nothing detects the card */
    bool absent;           /* there is no card */
    bool version_2;        /* version 2.00: dividers that are powers of two */
    bool untold;           /* the capabilities are all 0 */
    bool completes;        /* Transfer Complete comes also after CMD12 in a transfer, which then needs no reset, with an error of
                            * the last block, and with a time-out that counts for nothing */
    uint32_t base_mhz;
    uint32_t voltages;     /* of the slot: 1 for 3.3 V, 2 for 3.0 V, 4 for 1.8 V */
    uint32_t buffers;      /* blocks that the buffer holds: 1 or 2 */
    uint32_t late_clocks;  /* from the end of an answer until busy begins */
    uint32_t first_ms;     /* what the clock says at first */
    uint64_t give_up_ns;   /* the controller's longest data time-out */
    uint64_t bounce_ns;    /* how long it takes until the controller detects a card */
    struct model_mishap mishap;
};

enum model_event { EVENT_RESPONSE, EVENT_READY, EVENT_BLOCK, EVENT_TIMEOUT, EVENT_NO_BUSY, EVENT_RESET, EVENT_STABLE, EVENT_DETECTED, EVENTS };

/* A transfer as the controller sees it. */
struct model_transfer {
    bool active, reading, counted, failed;
    uint32_t size;    /* bytes of a block */
    uint32_t left;    /* blocks that have not crossed the lines, if they are counted */
    uint32_t moved;   /* blocks that have */
    uint32_t damaged; /* the block that will be damaged, from 1 on */
    uint32_t queued;  /* blocks in the buffer; the first one is on the lines or is read by the driver */
    uint32_t at;      /* bytes of a block that the driver has read or written */
    uint8_t queue[2][CARD_BLOCK];
    uint64_t began, ends; /* when the block on the lines began, and when it ends */
};

struct sdhci_model {
    struct model_setup setup;
    struct card card;
    struct model_transfer transfer;
    uint64_t now, due[EVENTS];
    uint64_t call_ns;                      /* how long a call for the time takes */
    uint64_t unpowered_at;
    uint64_t powered_at, clock_at, clocks; /* so many clocks up to clock_at, since power */
    uint32_t words[64];                    /* registers that are read as they were written */
    uint32_t status;                       /* both interrupt status registers */
    bool command_inhibit, data_inhibit;
    uint64_t inhibited_until; /* Command Inhibit (CMD) goes some time after Command Complete comes */
    bool watching;     /* the controller waits for the end of busy after an R1b */
    bool inserted;     /* as the controller has found out */
    uint32_t khz;      /* of the clock to the card; 0 while it stands */
    uint32_t seen[64]; /* commands by index */
    uint32_t broken[MODEL_RULES_COUNT];
};

extern const char *const model_rule_names[MODEL_RULES_COUNT];

/* A controller that a boot ROM has left, with power on and bits in its status registers. */
void model_begin(struct sdhci_model *model, const struct model_setup *setup);

uint32_t model_read(struct sdhci_model *model, uint32_t bytes, uint32_t offset);
void model_write(struct sdhci_model *model, uint32_t bytes, uint32_t offset, uint32_t value);
uint32_t model_milliseconds(struct sdhci_model *model);

/* Lets time pass without an access. */
void model_pass(struct sdhci_model *model, uint64_t nanoseconds);

/* Whether the card holds DAT0 low, or will after an answer that it gave. */
bool model_is_busy(const struct sdhci_model *model);

#endif
