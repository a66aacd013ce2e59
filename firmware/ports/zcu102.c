/*
 * ZCU102 (Zynq UltraScale+): its second controller, SD1, which has the board's slot.
 *
 * What the board owes, and who sees to it:
 * - Clock and reset of SD1, its pins (MIO 39 to 51, with card detect at 45) and those of the serial line: the first-stage boot loader
 *   (psu_init).
 * - The base clock is that of the capabilities.
 * - Time: the processor's counter, which the boot loader has started.
 * - Registers take accesses of 8, 16 and 32 bits.
 * - Power: the slot has 3.3 V, always. Cards are asked for no other voltage.
 * - Card detect reaches the controller.
 */
#include "bare.h"

static const uintptr_t SERIAL = 0xFF000000, CONTROLLER = 0xFF170000;

/* Registers of the serial line, by their offsets. */
enum { SERIAL_CONTROL = 0x00, SERIAL_STATUS = 0x2C, SERIAL_FIFO = 0x30 };
enum { SEND_AND_RECEIVE = 0x14, FIFO_FULL = 0x10 };

bool port_open(struct sdhci_port *port)
{
    *port = (struct sdhci_port){
        .read = bare_read, .write = bare_write, .milliseconds = counter_milliseconds, .board = (void *)CONTROLLER};
    return true;
}

void port_put(char byte)
{
    *word_at(SERIAL + SERIAL_CONTROL) = SEND_AND_RECEIVE;
    while ((*word_at(SERIAL + SERIAL_STATUS) & FIFO_FULL) != 0) {
    }
    *word_at(SERIAL + SERIAL_FIFO) = (uint8_t)byte;
}

void port_off(void) { psci_off_by_smc(); }
