/* The player of script tables (docs/TABLES.md) in Rattle, as a static library: `make firmware` builds it for x86-64 and
 * aarch64.  It has the calls of sdv_step.h, so a program that includes this file in its place and is linked with the
 * library runs the proved player.  docs/PROVED.md says what is proved.
 *
 * The library needs no heap and no C library.  Code for x86-64 uses SSE registers, code for aarch64 vector registers: early
 * firmware has to enable them before the first call. */
#ifndef SDV_PLAYER_H
#define SDV_PLAYER_H
#include <stddef.h>
#include <stdint.h>

#ifdef __cplusplus
extern "C" {
#endif

enum sdv_what {
    SDV_SEND = 1, /* send a command, and pass what came of it to sdv_answer */
    SDV_DATA_IN,  /* receive `count` blocks of 512 bytes, and call sdv_ended */
    SDV_REG_IN,   /* receive a register of `count` bytes, and pass it to sdv_ended */
    SDV_DATA_OUT, /* send `count` blocks, and call sdv_ended */
    SDV_WAIT,     /* wait while the card is busy, and call sdv_ended */
    SDV_DONE,     /* the run ended as the script says */
    SDV_FAULT,    /* the run ended in the fault of this name, `count` bytes */
    SDV_STOPPED   /* the run ended by an answer that no card may give, at a command more than the table allows, or by a table
                   * that is not well formed */
};

enum sdv_reply { SDV_SENT, SDV_REPLY, SDV_TIMEOUT, SDV_DAMAGED };

/* what follows a command on the data lines, if the card takes it */
enum sdv_data { SDV_NO_DATA, SDV_BUSY, SDV_BLOCKS_IN, SDV_BLOCKS_OUT, SDV_REGISTER };

struct sdv_event {
    uint32_t what;     /* of enum sdv_what */
    uint32_t point;    /* the statement's point, by which the script's line is found */
    uint32_t index;    /* of a command */
    uint32_t argument; /* of a command */
    uint32_t expect;   /* the response to wait for: 0 none, else 1, 2, 3, 6 or 7 for R1 to R7 */
    uint32_t data;     /* of enum sdv_data, of a command */
    uint32_t count;    /* blocks, or bytes of a register or of a name; of a command with data, what will follow it */
    uint32_t lines;    /* the data lines that the host uses: 1, 4 or 8 */
    uint8_t name[16];  /* of a fault */
};

/* The caller owns it, and need not look into it. */
struct sdv_state {
    uint64_t variables[8], csd_blocks, ext_blocks, ext_boot;
    size_t declared;
    uint32_t kind, lines, csd_read, ext_read;
    uint16_t rca, announced, register_length;
    uint8_t flags;
    uint64_t moves, commands;
    size_t point, depth;
    uint16_t turns[4];
    uint32_t asked;
    /* Not 0 where the last command was taken as CMD55: its answer was an R1 with APP_CMD.  Then sdv_next says that the 64
     * bytes of an SD status follow index 13.  sdv_start clears it, each sdv_answer that returns 1 sets or clears it, and all
     * other calls leave it. */
    uint32_t app;
};

/* Whether the words are well formed as a table (docs/TABLES.md): 1 or 0.  sdv_start looks at the magic, the version and the size
 * alone.  Ask once where the words come from a disk or another program. */
int32_t sdv_is_table(const uint32_t *table, size_t words);

/* Begins a run.  1, or 0 where the words have not the magic, the version and the size of a table. */
int32_t sdv_start(const uint32_t *table, size_t words, struct sdv_state *s);

/* What the host does next; statements without an event are passed.  Asked again, it answers the same. */
uint32_t sdv_next(const uint32_t *table, size_t words, struct sdv_state *s, struct sdv_event *e);

/* The two calls below, with the bytes and how many there are. */
int32_t sdv_answer_bytes(const uint32_t *table, size_t words, struct sdv_state *s, uint32_t reply, uint32_t word,
                         const uint8_t *r2, size_t bytes);
int32_t sdv_ended_bytes(const uint32_t *table, size_t words, struct sdv_state *s, int32_t well, const uint8_t *bytes,
                        size_t count);

/* What came of the command that sdv_next asked for: `reply` of enum sdv_reply, `word` the 32 bits of an R1, R3, R6 or R7,
 * and `r2` bits 127..8 of an R2, 15 bytes, the highest first, or NULL.  A damaged answer does what a time-out does, and so does
 * an R2 without its bytes.  1, or 0 where the answer is refused: the run has stopped.  0 too where nothing was asked for: then
 * nothing changes. */
static inline int sdv_answer(const uint32_t *table, size_t words, struct sdv_state *s, uint32_t reply, uint32_t word,
                             const uint8_t *r2)
{
    return sdv_answer_bytes(table, words, s, reply, word, r2 ? r2 : (const uint8_t *)table, r2 ? 15 : 0);
}

/* How the phase or the wait ended that sdv_next asked for, with the `count` bytes of a register that came well, or NULL.  1, or
 * 0 as of sdv_answer. */
static inline int sdv_ended(const uint32_t *table, size_t words, struct sdv_state *s, int well, const uint8_t *bytes)
{
    return sdv_ended_bytes(table, words, s, well, bytes ? bytes : (const uint8_t *)table, bytes ? s->register_length : 0);
}

#ifdef __cplusplus
}
#endif

#endif
