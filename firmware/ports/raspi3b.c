/*
 * Raspberry Pi 3B: the Arasan controller of the BCM2837 (EMMC), which takes accesses of 32 bits alone.
 *
 * What the board owes, and who sees to it:
 * - Clock: the capabilities do not tell it. The VideoCore firmware does, over its mailbox.
 * - Time: the processor's counter, which the firmware has started.
 * - Registers: two writes within two clocks of the card may lose one of them, so the port waits 10 microseconds behind each write,
 *   which is four clocks at 400 kHz. The buffer needs no such wait.
 * - Power: the firmware switches it, over its mailbox. The slot has 3.3 V.
 * - Card detect: the slot's switch does not reach the controller, so its card counts as soldered.
 * - Pins: 48 to 53 go to this controller by their function 3. Their pull-ups are as the firmware left them when it read the card.
 */
#include "bare.h"

static const uintptr_t MAILBOX = 0x3F00B880, WATCHDOG = 0x3F100000, PINS = 0x3F200000, SERIAL = 0x3F201000, CONTROLLER = 0x3F300000;

/* Registers by their offsets. */
enum { MAIL = 0x00, MAIL_STATUS = 0x18, MAIL_OUT = 0x20, FUNCTION_4 = 0x10, FUNCTION_5 = 0x14, SERIAL_FLAGS = 0x18 };
enum { RESET_CONTROL = 0x1C, RESET_STATUS = 0x20, BUFFER = 0x20 };

static const uint32_t MAIL_FULL = UINT32_C(1) << 31, MAIL_EMPTY = UINT32_C(1) << 30, SERIAL_FULL = 1 << 5, PASSWORD = 0x5A000000;

/* A message to the firmware, property channel 8: power for the card, and the base clock in Hz, which is 0 without an answer. Its address
 * has to be a multiple of 16, as the firmware sees memory without its cache. */
static uint32_t ask_firmware(void)
{
    enum { CHANNEL = 8, SET_POWER = 0x00028001, CARD = 0, ON_AND_WAIT = 3, GET_RATE = 0x00030002, CONTROLLER_CLOCK = 1 };
    static const uint32_t words[] = {52, 0, SET_POWER, 8, 0, CARD, ON_AND_WAIT, GET_RATE, 8, 0, CONTROLLER_CLOCK, 0, 0};
    static uint32_t space[16];
    volatile uint32_t *message = (volatile uint32_t *)(((uintptr_t)space + 15) & ~(uintptr_t)15);
    uint32_t i;

    for (i = 0; i < sizeof words / sizeof *words; i++)
        message[i] = words[i];
    while ((*word_at(MAILBOX + MAIL_STATUS) & MAIL_FULL) != 0) {
    }
    *word_at(MAILBOX + MAIL_OUT) = UINT32_C(0xC0000000) | (uint32_t)(uintptr_t)message | CHANNEL;
    do {
        while ((*word_at(MAILBOX + MAIL_STATUS) & MAIL_EMPTY) != 0) {
        }
    } while ((*word_at(MAILBOX + MAIL) & 15) != CHANNEL);
    return message[11];
}

static void write_slowly(void *board, uint32_t offset, uint32_t value)
{
    uint64_t since = counter();

    bare_write(board, offset, value);
    while (offset != BUFFER && counter() - since < counter_frequency() / 100000) {
    }
}

bool port_open(struct sdhci_port *port)
{
    *word_at(PINS + FUNCTION_4) |= UINT32_C(077) << 24;
    *word_at(PINS + FUNCTION_5) |= UINT32_C(07777);
    *port = (struct sdhci_port){.read = bare_read,
                                .write = write_slowly,
                                .milliseconds = counter_milliseconds,
                                .board = (void *)CONTROLLER,
                                .base_khz = ask_firmware() / 1000,
                                .soldered = true};
    return port->base_khz != 0;
}

void port_put(char byte)
{
    while ((*word_at(SERIAL + SERIAL_FLAGS) & SERIAL_FULL) != 0) {
    }
    *word_at(SERIAL) = (uint8_t)byte;
}

/* The watchdog resets into partition 63, which the firmware takes for the end. */
void port_off(void)
{
    *word_at(WATCHDOG + RESET_STATUS) = PASSWORD | 0x555;
    *word_at(WATCHDOG + RESET_CONTROL) = PASSWORD | 0x20;
}
