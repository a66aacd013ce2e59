/*
 * How long the player takes for a command, driver and card apart: the bring-up of an SD card, many times. Its table is the
 * array `table`; the answers are those of a card that is ready at once.
 */
#define _POSIX_C_SOURCE 199309L
#include <stdio.h>
#include <time.h>

#ifdef PROVED
#include "../firmware/sdv_player.h"
#else
#include "../firmware/sdv_step.h"
#endif

extern const uint32_t table[];
extern const size_t table_words;

static const struct { uint32_t reply, word; } answers[] = {
    {SDV_SENT, 0},           {SDV_REPLY, 0x1AA}, {SDV_REPLY, 0x120},      {SDV_REPLY, 0xC0FF8000}, {SDV_REPLY, 0},
    {SDV_REPLY, 0x12340500}, {SDV_REPLY, 0},     {SDV_REPLY, 0x00000700}, {SDV_REPLY, 0x00000900},
};

int main(void)
{
    static const uint8_t csd[15] = {0x40, 0, 0, 0, 0, 9};
    enum { RUNS = 200000, COMMANDS = sizeof answers / sizeof *answers };
    struct timespec from, to;
    struct sdv_state state;
    struct sdv_event event;
    unsigned long commands = 0;
    int i, run;

    clock_gettime(CLOCK_MONOTONIC, &from);
    for (run = 0; run < RUNS; run++) {
        if (!sdv_start(table, table_words, &state))
            return 1;
        for (i = 0; i < COMMANDS && sdv_next(table, table_words, &state, &event) == SDV_SEND; i++, commands++)
            sdv_answer(table, table_words, &state, answers[i].reply, answers[i].word, csd);
        if (sdv_next(table, table_words, &state, &event) != SDV_DONE)
            return 1;
    }
    clock_gettime(CLOCK_MONOTONIC, &to);
    printf("%.0f ns a command\n", ((double)(to.tv_sec - from.tv_sec) * 1e9 + (double)(to.tv_nsec - from.tv_nsec)) / (double)commands);
    return 0;
}
