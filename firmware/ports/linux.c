/*
 * linux DEVICE TABLE: a program of Linux that plays a table over an SDHCI controller behind PCI, as 0000:00:04.0. TABLE is a file that
 * `sdv emit --binary` wrote. It maps the controller's registers, `resource0` of the device, and has to run as root. Its status is 0
 * if the run ended as the script says.
 *
 * What the system owes, and who sees to it:
 * - Clock, power, pins and address: the firmware has set up PCI, and the capabilities tell the base clock.
 * - No other driver: the port unbinds the kernel's driver from the controller. Linux then no longer has the card.
 * - Time: CLOCK_MONOTONIC.
 * - Registers take accesses of 8, 16 and 32 bits.
 * - Card detect reaches the controller.
 */
#define _POSIX_C_SOURCE 200809L
#include <fcntl.h>
#include <stdio.h>
#include <string.h>
#include <sys/mman.h>
#include <time.h>
#include <unistd.h>

#include "port.h"

enum { REGISTERS = 256, MOST_WORDS = 65536 };

static const char *device;

static uint32_t read_register(void *board, uint32_t offset) { return *(volatile uint32_t *)((uintptr_t)board + offset); }

static void write_register(void *board, uint32_t offset, uint32_t value)
{
    *(volatile uint32_t *)((uintptr_t)board + offset) = value;
}

static uint32_t milliseconds(void *board)
{
    struct timespec now;

    (void)board;
    clock_gettime(CLOCK_MONOTONIC, &now);
    return (uint32_t)now.tv_sec * 1000 + (uint32_t)(now.tv_nsec / 1000000);
}

/* Opens a file of the device; less than 0 if it has none. */
static int open_file(const char *name, int how)
{
    char path[256];

    snprintf(path, sizeof path, "/sys/bus/pci/devices/%s/%s", device, name);
    return open(path, how);
}

static bool write_file(const char *name, const char *text)
{
    int file = open_file(name, O_WRONLY);
    bool well = file >= 0 && write(file, text, strlen(text)) == (ssize_t)strlen(text);

    if (file >= 0)
        close(file);
    return well;
}

bool port_open(struct sdhci_port *port)
{
    int file;
    void *registers;

    (void)write_file("driver/unbind", device); /* no driver may be bound */
    if (!write_file("enable", "1"))
        return false;
    file = open_file("resource0", O_RDWR | O_SYNC);
    if (file < 0)
        return false;
    registers = mmap(NULL, REGISTERS, PROT_READ | PROT_WRITE, MAP_SHARED, file, 0);
    close(file);
    *port = (struct sdhci_port){.read = read_register, .write = write_register, .milliseconds = milliseconds, .board = registers};
    return registers != MAP_FAILED;
}

void port_put(char byte) { putchar(byte); }

/* The words of the table; 0 if the file cannot be read. */
static size_t load(const char *name, uint32_t table[MOST_WORDS])
{
    static uint8_t bytes[4 * MOST_WORDS];
    FILE *file = fopen(name, "rb");
    size_t words, i;

    if (file == NULL)
        return 0;
    words = fread(bytes, 1, sizeof bytes, file) / 4;
    fclose(file);
    for (i = 0; i < words; i++)
        table[i] = bytes[4 * i] | (uint32_t)bytes[4 * i + 1] << 8 | (uint32_t)bytes[4 * i + 2] << 16 | (uint32_t)bytes[4 * i + 3] << 24;
    return words;
}

int main(int words, char **word)
{
    static uint32_t table[MOST_WORDS];
    bool well;

    if (words != 3) {
        fprintf(stderr, "usage: linux DEVICE TABLE\n");
        return 2;
    }
    device = word[1];
    well = play(table, load(word[2], table));
    return fflush(stdout) == 0 && well ? 0 : 1;
}
