/*
 * QEMU's board virt (aarch64), with an SDHCI controller behind PCI Express.
 *
 * What the board owes: nothing else. Clock, power and card detect are the controller's, and the capabilities tell its base clock.
 * Registers take accesses of 8, 16 and 32 bits. The processor's counter is the clock. Firmware that has set up PCI has given the
 * controller its address already; here there is none before the port, so the port chooses it.
 */
#include "bare.h"

static const uintptr_t SERIAL = 0x09000000, CONFIGURATION = 0x3F000000, CONTROLLER = 0x10000000;
static const uint32_t VENDOR_AND_DEVICE = 0x00071B36;

enum { DEVICES = 32, COMMAND = 0x04, BASE_ADDRESS = 0x10, MEMORY_AND_MASTER = 6 };

static volatile uint32_t *configuration(uint32_t device, uint32_t offset) { return word_at(CONFIGURATION + (device << 15) + offset); }

bool port_open(struct sdhci_port *port)
{
    uint32_t device = 0;

    while (device < DEVICES && *configuration(device, 0) != VENDOR_AND_DEVICE)
        device++;
    if (device == DEVICES)
        return false;
    *configuration(device, BASE_ADDRESS) = (uint32_t)CONTROLLER;
    *configuration(device, COMMAND) |= MEMORY_AND_MASTER;
    *port = (struct sdhci_port){
        .read = bare_read, .write = bare_write, .milliseconds = counter_milliseconds, .board = (void *)CONTROLLER};
    return true;
}

void port_put(char byte) { *word_at(SERIAL) = (uint8_t)byte; }

void port_off(void) { psci_off_by_hvc(); }
