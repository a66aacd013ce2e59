/*
 * qemu-sdhci IMAGE: answers the requests of docs/PROTOCOL.md by QEMU's SDHCI controller and the SD card behind it.
 *
 * It starts qemu-system-x86_64 with a card over IMAGE, stops its processor, and reaches the controller's registers by QEMU's
 * qtest protocol. Requests are read from standard input, and answers go to standard output; docs/PROTOCOL.md has both. The
 * status is 0 after the line `done` or `fault`, and 2 with a line on standard error otherwise.
 */
#define _POSIX_C_SOURCE 200809L
#include <inttypes.h>
#include <signal.h>
#include <stdio.h>
#include <stdlib.h>
#include <string.h>
#include <sys/wait.h>
#include <time.h>
#include <unistd.h>

#include "../../firmware/sdhci.h"

static const uint32_t BASE_ADDRESS = 0xE0000000u;
static const uint32_t VENDOR_AND_DEVICE = 0x00071B36;

static FILE *to_qemu, *from_qemu;
static pid_t qemu;

/* QEMU does not end with its input. */
static void stop_qemu(void)
{
    if (qemu > 0) {
        kill(qemu, SIGTERM);
        waitpid(qemu, NULL, 0);
    }
}

static void fail(const char *why)
{
    fprintf(stderr, "qemu-sdhci: %s\n", why);
    exit(2);
}

/* Has QEMU do what the line says; the number that it answers, if any. */
static uint64_t qtest(const char *line)
{
    char said[256];

    fprintf(to_qemu, "%s\n", line);
    fflush(to_qemu);
    while (fgets(said, sizeof said, from_qemu)) {
        if (strncmp(said, "OK", 2) == 0)
            return said[2] == ' ' ? strtoull(said + 3, NULL, 0) : 0;
        if (strncmp(said, "FAIL", 4) == 0 || strncmp(said, "ERR", 3) == 0)
            fail(said);
    }
    fail("qemu has gone");
    return 0;
}

static uint32_t read_register(void *board, uint32_t offset)
{
    char line[64];

    (void)board;
    snprintf(line, sizeof line, "readl 0x%" PRIx32, BASE_ADDRESS + offset);
    return (uint32_t)qtest(line);
}

static void write_register(void *board, uint32_t offset, uint32_t value)
{
    char line[64];

    (void)board;
    snprintf(line, sizeof line, "writel 0x%" PRIx32 " 0x%" PRIx32, BASE_ADDRESS + offset, value);
    qtest(line);
}

static uint32_t milliseconds(void *board)
{
    struct timespec now;

    (void)board;
    clock_gettime(CLOCK_MONOTONIC, &now);
    return (uint32_t)now.tv_sec * 1000 + (uint32_t)(now.tv_nsec / 1000000);
}

static struct sdhci host = {.port = {.read = read_register, .write = write_register, .milliseconds = milliseconds}};

static void select_configuration(uint32_t device, uint32_t reg)
{
    char line[64];

    snprintf(line, sizeof line, "outl 0xcf8 0x%" PRIx32, UINT32_C(0x80000000) | device << 11 | reg);
    qtest(line);
}

static uint32_t configuration_read(uint32_t device, uint32_t reg)
{
    select_configuration(device, reg);
    return (uint32_t)qtest("inl 0xcfc");
}

static void configuration_write(uint32_t device, uint32_t reg, uint32_t value)
{
    char line[64];

    select_configuration(device, reg);
    snprintf(line, sizeof line, "outl 0xcfc 0x%" PRIx32, value);
    qtest(line);
}

static void start_qemu(const char *image)
{
    int down[2], up[2];
    char drive[4096];

    if (snprintf(drive, sizeof drive, "if=none,id=card,file=%s,format=raw", image) >= (int)sizeof drive || pipe(down) || pipe(up))
        fail("no pipe");
    qemu = fork();
    if (qemu < 0)
        fail("no process");
    if (qemu == 0) {
        dup2(down[0], 0);
        dup2(up[1], 1);
        close(down[1]);
        close(up[0]);
        execlp("qemu-system-x86_64", "qemu-system-x86_64", "-machine", "q35", "-accel", "tcg", "-S", "-display", "none", "-monitor", "none",
               "-serial", "none", "-qtest", "stdio", "-qtest-log", "none", "-device", "sdhci-pci", "-drive", drive, "-device",
               "sd-card,drive=card", (char *)NULL);
        _exit(127);
    }
    close(down[0]);
    close(up[1]);
    to_qemu = fdopen(down[1], "w");
    from_qemu = fdopen(up[0], "r");
    if (!to_qemu || !from_qemu)
        fail("no stream");
    atexit(stop_qemu);
}

static void find_controller(void)
{
    uint32_t device = 0;

    while (device < 32 && configuration_read(device, 0) != VENDOR_AND_DEVICE)
        device++;
    if (device == 32)
        fail("no SDHCI controller");
    configuration_write(device, 0x10, BASE_ADDRESS);
    configuration_write(device, 0x04, configuration_read(device, 0x04) | 6);
    if (!sdhci_start(&host))
        fail("no card");
}

static void put_digits(const uint8_t *bytes, size_t count)
{
    static const char digits[] = "0123456789abcdef";
    size_t i;

    for (i = 0; i < count; i++) {
        putchar(digits[bytes[i] >> 4]);
        putchar(digits[bytes[i] & 15]);
    }
}

static int digit(char c)
{
    if (c >= '0' && c <= '9')
        return c - '0';
    return c >= 'a' && c <= 'f' ? c - 'a' + 10 : -1;
}

static void read_block(uint8_t *block)
{
    char line[1028];
    unsigned i;

    if (!fgets(line, sizeof line, stdin) || strlen(line) != 1025)
        fail("a line of a block is missing");
    for (i = 0; i < 512; i++) {
        if (digit(line[2 * i]) < 0 || digit(line[2 * i + 1]) < 0)
            fail("a line of a block has other characters than digits");
        block[i] = (uint8_t)(digit(line[2 * i]) << 4 | digit(line[2 * i + 1]));
    }
}

/* The data that follow a command, as its request announces them: ` in 8 lines 4`, ` in 512 bytes lines 1`, ` out 8 lines 4`, or
 * nothing. False if it is none of these. */
static bool read_data(const char *text, struct sdhci_data *data)
{
    char way[4];
    uint32_t count;

    data->block_bytes = 512;
    if (*text == '\0')
        return true;
    if (sscanf(text, " %3s %" SCNu32 " lines %" SCNu32, way, &count, &data->lines) == 3)
        data->blocks = count;
    else if (sscanf(text, " %3s %" SCNu32 " bytes lines %" SCNu32, way, &data->block_bytes, &data->lines) == 3)
        data->blocks = 1;
    else
        return false;
    data->direction = strcmp(way, "in") == 0 ? SDHCI_TO_HOST : SDHCI_TO_CARD;
    return true;
}

static enum sdhci_response response_of(const char *name)
{
    return *name == '-' ? SDHCI_NONE : (enum sdhci_response)(name[1] - '0');
}

/* CMD<index> <argument> <response>, and the data that follow */
static bool answer_command(const char *line)
{
    struct sdhci_command command = {0};
    struct sdhci_answer answer = {SDHCI_TIMEOUT, 0, {0}};
    char name[4];
    int end = 0;

    if (sscanf(line, "CMD%" SCNu32 " %" SCNx32 " %3s%n", &command.index, &command.argument, name, &end) != 3
        || !read_data(line + end, &command.data))
        return false;
    command.response = response_of(name);
    command.busy = command.index == 7 || command.index == 12 || command.index == 38;
    sdhci_exchange(&host, &command, &answer);
    switch (answer.outcome) {
    case SDHCI_SENT:
        puts("-");
        break;
    case SDHCI_TIMEOUT:
        puts("timeout");
        break;
    case SDHCI_DAMAGED:
        puts("damaged");
        break;
    case SDHCI_ANSWERED:
        printf("%s ", name);
        if (command.response == SDHCI_R2)
            put_digits(answer.contents, sizeof answer.contents);
        else
            printf("%08" PRIx32, answer.word);
        putchar('\n');
    }
    return true;
}

/* The data lines of the phase came with the command. */
static void answer_phase(const char *word, uint32_t count)
{
    uint32_t block_bytes = strcmp(word, "REG") == 0 ? count : 512, blocks = strcmp(word, "REG") == 0 ? 1 : count, i;
    uint8_t *bytes;
    bool ended;

    if (count == 0) { /* nothing crosses the data lines */
        puts("ok");
        return;
    }
    bytes = malloc((size_t)blocks * block_bytes);
    if (!bytes)
        fail("out of memory");
    if (strcmp(word, "OUT") == 0) {
        for (i = 0; i < blocks; i++)
            read_block(bytes + 512 * (size_t)i);
        puts(sdhci_give(&host, bytes, 512 * blocks) ? "ok" : "cut");
    } else {
        ended = sdhci_receive(&host, bytes, block_bytes * blocks);
        puts(ended ? "ok" : "cut");
        for (i = 0; ended && i < blocks; i++) {
            put_digits(bytes + (size_t)block_bytes * i, block_bytes);
            putchar('\n');
        }
    }
    free(bytes);
}

/* Answers requests until the line that ends them. */
static void serve(void)
{
    char line[128], word[4];
    uint32_t count, lines;

    while (fgets(line, sizeof line, stdin)) {
        line[strcspn(line, "\n")] = '\0';
        if (strcmp(line, "done") == 0 || strncmp(line, "fault ", 6) == 0)
            return;
        if (strcmp(line, "WAIT") == 0)
            puts(sdhci_await_ready(&host) ? "ok" : "late");
        else if (sscanf(line, "%3[INREGOUT] %" SCNu32 " lines %" SCNu32, word, &count, &lines) == 3 && count <= 65535)
            answer_phase(word, count);
        else if (!answer_command(line))
            fail("a line is no request");
        fflush(stdout);
    }
    fail("the requests ended before done or fault");
}

int main(int words, char **word)
{
    if (words != 2) {
        fprintf(stderr, "usage: qemu-sdhci IMAGE\n");
        return 2;
    }
    start_qemu(word[1]);
    find_controller();
    serve();
    return 0;
}
