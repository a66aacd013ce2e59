/*
 * The card of the model: an SD card or an e.MMC device with addresses in bytes or in blocks. It takes the commands that bring it up,
 * read, write and erase blocks, and read registers, each in the states in which the standards allow it, and answers no other.
 */
#ifndef SDHCI_CARD_H
#define SDHCI_CARD_H
#include <stdbool.h>
#include <stdint.h>

enum { CARD_BLOCKS = 64, CARD_BLOCK = 512, CARD_ADDRESS = 0x1234 };

/* By their numbers in the card status. */
enum card_state { CARD_IDLE, CARD_READY, CARD_IDENT, CARD_STBY, CARD_TRAN, CARD_DATA, CARD_RCV, CARD_PRG };

struct card_setup {
    bool emmc;
    bool bytes;           /* addresses in bytes */
    uint32_t polls;       /* how often CMD1 or ACMD41 finds the card not ready */
    uint64_t program_ns;  /* how long the card is busy after a block */
    uint64_t erase_ns;    /* after CMD38 */
    uint64_t select_ns;   /* after CMD7 */
};

struct card {
    struct card_setup setup;
    enum card_state state;
    bool powered, selected, application;
    uint32_t rca, lines, polls, preset, erase_from, erase_to;
    uint32_t next, left;     /* the next block, and how many follow; CARD_OPEN: until CMD12 */
    uint32_t register_bytes; /* of the register that is sent; 0 where blocks are sent */
    uint64_t busy_from, busy_until;
    uint8_t blocks[CARD_BLOCKS][CARD_BLOCK];
};

#define CARD_OPEN 0xFFFFFFFFu

struct card_answer {
    uint32_t format; /* 0 for none, else of R1, R2, R3, R6, R7 */
    uint32_t word;
    uint8_t contents[15];
    bool busy;        /* R1b */
    uint32_t to_host; /* bytes of a block that comes */
    uint32_t to_card; /* bytes of a block that is waited for */
};

/* Power comes, or goes. */
void card_power(struct card *card, bool on);

/* The card takes a command at this time; busy begins at that one. */
void card_take(struct card *card, uint32_t index, uint32_t argument, uint64_t at, uint64_t busy_at, struct card_answer *answer);

/* The next block or the register. False if there is none. */
bool card_send(struct card *card, uint8_t *block);

/* All that is due goes out, and nobody takes it. */
void card_drain(struct card *card);

/* A block came, undamaged or not. */
void card_receive(struct card *card, const uint8_t *block, bool damaged, uint64_t at, uint64_t busy_at);

/* Busy has ended. */
void card_ready(struct card *card);

#endif
