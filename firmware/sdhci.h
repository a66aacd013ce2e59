/*
 * A driver for host controllers of the SD Host Controller Simplified Specification, version 2.00 or later, by programmed I/O. It is
 * a sample: no proof covers it. checks/firmware tests it beside a model of the registers, bench/qemu.sh beside QEMU's controller.
 * It needs no heap and no C library, and keeps what it knows in the structure that the caller gives. README.md says what a port owes.
 *
 * The clock is at most 400 kHz until the card has answered CMD7, and at most 25 MHz from then on, until the next CMD0.
 */
#ifndef SDHCI_H
#define SDHCI_H

#include <stdbool.h>
#include <stdint.h>

#ifdef __cplusplus
extern "C" {
#endif

/* What the board gives. */
struct sdhci_port {
    /* Reads and writes the 32 bits of a register at this offset from the controller's base, a multiple of 4, in one access. */
    uint32_t (*read)(void *board, uint32_t offset);
    void (*write)(void *board, uint32_t offset, uint32_t value);
    uint32_t (*milliseconds)(void *board); /* a clock that goes on and on; from 2^32 - 1 it goes to 0 */
    void *board;                           /* the first argument of the three; the driver does not look at it */
    uint32_t base_khz;                     /* the controller's base clock if its capabilities do not tell it; otherwise 0 */
    bool soldered;                         /* the device is soldered: nothing detects it as a card */
};

/* The response that a command has: its format by number. */
enum sdhci_response { SDHCI_NONE = 0, SDHCI_R1 = 1, SDHCI_R2 = 2, SDHCI_R3 = 3, SDHCI_R6 = 6, SDHCI_R7 = 7 };

enum sdhci_direction { SDHCI_NO_DATA, SDHCI_TO_HOST, SDHCI_TO_CARD };

/* What crosses the data lines after a command. The controller has to know before the command is sent. */
struct sdhci_data {
    enum sdhci_direction direction;
    uint32_t block_bytes; /* bytes of a block: 512, or the length of a register, a multiple of 4 */
    uint32_t blocks;      /* how many, at most 65,535; 0 if CMD18 or CMD25 is sent before that is known: until CMD12 */
    uint32_t lines;       /* data lines: 1, 4 or 8 */
};

struct sdhci_command {
    uint32_t index;
    uint32_t argument;
    enum sdhci_response response;
    bool busy; /* R1b: the card may hold DAT0 low after the response */
    struct sdhci_data data;
};

/* A damaged response (its CRC, end bit or index is wrong) tells no more than none: the card may have taken the command or not. */
enum sdhci_outcome { SDHCI_SENT, SDHCI_ANSWERED, SDHCI_TIMEOUT, SDHCI_DAMAGED };

struct sdhci_answer {
    enum sdhci_outcome outcome;
    uint32_t word;        /* bits 39..8 of a response of 48 bits */
    uint8_t contents[15]; /* bits 127..8 of R2, the highest first */
};

/* What goes on at the data lines. */
enum sdhci_line {
    SDHCI_FREE,    /* nothing */
    SDHCI_READING, /* a command announced data, and its phase has not ended */
    SDHCI_WRITING,
    SDHCI_BUSY, /* an R1b came, and the controller waits for the end of busy */
    SDHCI_STALE /* the controller has to be reset before the lines are used again */
};

/* A controller. The caller sets the port, and nothing else. */
struct sdhci {
    struct sdhci_port port;
    uint32_t base_khz;    /* the base clock */
    uint32_t clock;       /* clock control; timeout control from bit 16 on */
    uint32_t khz;         /* the clock of the card is at most this, */
    uint32_t wanted_khz;  /* and should be at most this: that of a selected card, or 400 */
    uint32_t power;       /* power control, from bit 8 on */
    uint32_t mode;        /* transfer mode */
    uint32_t block_bytes; /* of the command that announced data */
    enum sdhci_line line;
    bool wide_divider; /* version 3.00: the clock's divider has 10 bits */
};

/* Resets the controller, and gives the card power, its clock, and the time that it needs. False if there is no card, no voltage
 * or no clock for it, or if the controller does not come out of its reset. */
bool sdhci_start(struct sdhci *host);

/* Sends a command, and waits for its response. If the command needs the data lines and the card does not let go of them, it is not
 * sent, and the outcome is SDHCI_TIMEOUT. */
void sdhci_exchange(struct sdhci *host, const struct sdhci_command *command, struct sdhci_answer *answer);

/* The data phase of the last command that announced data: the bytes of its blocks, one block after another. False if it was cut, if
 * these are not all the bytes that were announced, or if that command was not answered. */
bool sdhci_receive(struct sdhci *host, uint8_t *to, uint32_t bytes);
bool sdhci_give(struct sdhci *host, const uint8_t *from, uint32_t bytes);

/* Waits until busy has begun, if it comes, and has ended. False if the card is still busy after SDHCI_BUSY_MS, or twice as long. */
bool sdhci_await_ready(struct sdhci *host);

#ifdef __cplusplus
}
#endif

#endif
