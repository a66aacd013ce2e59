/*
 * play TABLE                        plays a table beside a partner that docs/PROTOCOL.md describes: requests go to standard
 *                                   output, answers come from standard input, and the trace goes to standard error
 * play TABLE TRACE [SECTORS BOOT]   plays it beside the trace of a run of the same script: each event has to be the next one
 *                                   of the trace, is answered as there, and the run has to end as there
 *
 * A trace does not tell what registers had: an EXT_CSD has these SECTORS and this BOOT_SIZE_MULT, and else zeros. The blocks
 * that a script gives are zeros. The status is 0 where the run ended in `done` or a fault, and else 1.
 */
#include <string.h>

#ifdef PROVED
#include "../../firmware/sdv_player.h"
#else
#include "../../firmware/sdv_step.h"
#endif
#include "table.h"

enum { LINE = 1100 }; /* the longest line, and its end */

static const char *const responses[8] = {"-", "R1", "R2", "R3", "?", "?", "R6", "R7"};

static FILE *trace; /* NULL: the partner is at standard input and output */
static unsigned long trace_line;
static uint32_t sectors, boot;
static struct sdv_event announced; /* the last command that said what would follow it */

static void wrong(const char *what, const char *which)
{
    fprintf(stderr, "line %lu: %s %s\n", trace_line, what, which);
    exit(1);
}

static int read_line(FILE *from, char *line)
{
    size_t length;

    if (!fgets(line, LINE, from))
        return 0;
    length = strlen(line);
    if (length == 0 || line[length - 1] != '\n')
        wrong("no line:", line);
    line[length - 1] = 0;
    return 1;
}

static void ask_partner(const char *request, const char *more, uint32_t blocks, char *answer)
{
    printf("%s%s\n", request, more);
    for (; blocks; blocks--)
        printf("%01024d\n", 0);
    fflush(stdout);
    if (!read_line(stdin, answer))
        wrong("no answer to", request);
    fprintf(stderr, "%s %s\n", request, answer);
}

static void ask_trace(const char *request, char *answer)
{
    size_t length = strlen(request);

    trace_line++;
    if (!read_line(trace, answer))
        wrong("the trace ended before", request);
    if (strncmp(answer, request, length) != 0 || answer[length] != ' ')
        wrong("the player asked", request);
    memmove(answer, answer + length + 1, strlen(answer + length + 1) + 1);
}

/* The answer to a request. The trace has neither what stands behind it, `more`, nor blocks. */
static void ask(const char *request, const char *more, uint32_t blocks, char *answer)
{
    if (trace)
        ask_trace(request, answer);
    else
        ask_partner(request, more, blocks, answer);
}

static void read_digits(const char *text, uint8_t *bytes, uint32_t count)
{
    unsigned byte;
    uint32_t i;

    if (strlen(text) != 2 * (size_t)count)
        wrong("another number of digits:", text);
    for (i = 0; i < count; i++) {
        if (sscanf(text + 2 * i, "%2x", &byte) != 1)
            wrong("no digits:", text);
        bytes[i] = (uint8_t)byte;
    }
}

/* The response that a command waits for, and the data phase that its request announces. */
static void print_more(const struct sdv_event *event, char *more)
{
    const char *response = responses[event->expect & 7];
    unsigned count = event->count, lines = event->lines;

    switch (event->data) {
    case SDV_BLOCKS_IN:
        snprintf(more, LINE, " %s in %u lines %u", response, count, lines);
        break;
    case SDV_BLOCKS_OUT:
        snprintf(more, LINE, " %s out %u lines %u", response, count, lines);
        break;
    case SDV_REGISTER:
        snprintf(more, LINE, " %s in %u bytes lines %u", response, count, lines);
        break;
    default:
        snprintf(more, LINE, " %s", response);
        break;
    }
}

static int answer_command(const uint32_t *table, size_t words, struct sdv_state *state, const struct sdv_event *event)
{
    char request[LINE], more[LINE], answer[LINE];
    uint8_t bytes[15] = {0};
    uint32_t word = 0;

    snprintf(request, sizeof request, "CMD%u %08x", (unsigned)event->index, (unsigned)event->argument);
    print_more(event, more);
    ask(request, more, 0, answer);
    if (event->data != SDV_NO_DATA)
        announced = *event;
    if (strcmp(answer, "-") == 0)
        return sdv_answer(table, words, state, SDV_SENT, 0, NULL);
    if (strcmp(answer, "timeout") == 0)
        return sdv_answer(table, words, state, SDV_TIMEOUT, 0, NULL);
    if (strcmp(answer, "damaged") == 0)
        return sdv_answer(table, words, state, SDV_DAMAGED, 0, NULL);
    if (strncmp(answer, more + 1, 2) != 0 || answer[2] != ' ')
        wrong("the player waits for another response than", answer);
    read_digits(answer + 3, bytes, event->expect == 2 ? 15 : 4);
    word = (uint32_t)bytes[0] << 24 | (uint32_t)bytes[1] << 16 | (uint32_t)bytes[2] << 8 | bytes[3];
    return sdv_answer(table, words, state, SDV_REPLY, word, event->expect == 2 ? bytes : NULL);
}

/* Whether a phase ended well, by its answer. A controller was told of it with the command before. */
static int ask_phase(const char *word, uint32_t data, uint32_t blocks, const struct sdv_event *event)
{
    char request[LINE], more[LINE], answer[LINE];

    if (announced.data != data || announced.count != event->count)
        wrong("the command did not announce this phase:", word);
    snprintf(request, sizeof request, "%s %u", word, (unsigned)event->count);
    snprintf(more, sizeof more, " lines %u", (unsigned)event->lines);
    ask(request, more, blocks, answer);
    if (strcmp(answer, "ok") != 0 && strcmp(answer, "cut") != 0)
        wrong("no end of a phase:", answer);
    return answer[0] == 'o';
}

static int receive_blocks(const struct sdv_event *event)
{
    int well = ask_phase("IN", SDV_BLOCKS_IN, 0, event);
    char line[LINE];
    uint32_t i;

    for (i = 0; !trace && well && i < event->count; i++)
        if (!read_line(stdin, line))
            wrong("a block is missing", "");
    return well;
}

static int receive_register(const struct sdv_event *event, uint8_t bytes[512])
{
    int well = ask_phase("REG", SDV_REGISTER, 0, event);
    char line[LINE];
    uint32_t i;

    if (!well)
        return 0;
    if (!trace) {
        if (!read_line(stdin, line))
            wrong("the register is missing", "");
        read_digits(line, bytes, event->count);
    }
    for (i = 0; trace && i < 4; i++)
        bytes[212 + i] = (uint8_t)(sectors >> 8 * i);
    if (trace)
        bytes[226] = (uint8_t)boot;
    return 1;
}

static int await_ready(void)
{
    char answer[LINE];

    ask("WAIT", "", 0, answer);
    if (strcmp(answer, "ok") != 0 && strcmp(answer, "late") != 0)
        wrong("no end of a wait:", answer);
    return answer[0] == 'o';
}

/* Does what the player asks for, and tells it what came of that. 0 where it then stops. */
static int serve(const uint32_t *table, size_t words, struct sdv_state *state, const struct sdv_event *event)
{
    uint8_t bytes[512] = {0};
    int well;

    switch (event->what) {
    case SDV_SEND:
        return answer_command(table, words, state, event);
    case SDV_DATA_IN:
        well = receive_blocks(event);
        break;
    case SDV_REG_IN:
        well = receive_register(event, bytes);
        break;
    case SDV_DATA_OUT:
        well = ask_phase("OUT", SDV_BLOCKS_OUT, event->count, event);
        break;
    default:
        well = await_ready();
        break;
    }
    return sdv_ended(table, words, state, well, well ? bytes : NULL);
}

/* The run ended: so does the trace, or the partner is told. */
static void end(const struct sdv_event *event)
{
    char line[LINE], last[32] = "done";

    if (event->what == SDV_FAULT)
        snprintf(last, sizeof last, "fault %.*s", (int)event->count, (const char *)event->name);
    if (!trace) {
        printf("%s\n", last);
        fprintf(stderr, "%s\n", last);
        return;
    }
    trace_line++;
    if (!read_line(trace, line) || strcmp(line, last) != 0)
        wrong("the player ended with", last);
    if (read_line(trace, line))
        wrong("the trace goes on:", line);
}

int main(int count, char **arguments)
{
    struct sdv_state state;
    struct sdv_event event, again;
    uint32_t *table;
    size_t words;

    if (count != 2 && count != 3 && count != 5)
        fail("usage: play TABLE [TRACE [SECTORS BOOT]]", "");
    table = load_table(arguments[1], &words);
    if (count > 2 && !(trace = fopen(arguments[2], "r")))
        fail("cannot use", arguments[2]);
    if (count == 5) {
        sectors = (uint32_t)strtoul(arguments[3], NULL, 10);
        boot = (uint32_t)strtoul(arguments[4], NULL, 10);
    }
    if (!sdv_is_table(table, words) || !sdv_start(table, words, &state))
        wrong("no table:", arguments[1]);
    for (;;) {
        uint32_t what = sdv_next(table, words, &state, &event);

        sdv_next(table, words, &state, &again);
        if (memcmp(&event, &again, sizeof event) != 0 || what != event.what)
            wrong("the player answered otherwise when it was asked again", "");
        if (what == SDV_DONE || what == SDV_FAULT)
            break;
        if (what == SDV_STOPPED || !serve(table, words, &state, &event))
            wrong("the player stopped", "");
    }
    end(&event);
    free(table);
    return 0;
}
