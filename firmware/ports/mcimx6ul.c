/*
 * i.MX 6UltraLite evaluation kit (Cortex-A7, 32 bits): its first uSDHC, which has the slot of the base board.
 *
 * What the board owes, and who sees to it:
 * - Clock, 198 MHz; pins; and those of the serial line: the boot ROM, which read the image from this slot.
 * - The capabilities do not tell the base clock.
 * - Time: the general purpose timer, by the clock of 32,768 Hz divided by 33. So a millisecond is 1.007.
 * - Registers: the uSDHC takes accesses of 32 bits alone, and some lie elsewhere than in SDHCI. The port translates whole words.
 * - Power: pin 9 of the first general port switches the slot's 3.3 V.
 * - Card detect: the slot's switch is at a general port and not at the controller, so its card counts as soldered.
 */
#include "bare.h"

static const uintptr_t SERIAL = 0x02020000, TIMER = 0x02098000, PINS = 0x0209C000, WATCHDOG = 0x020BC000, CONTROLLER = 0x02190000;

/* Registers of the uSDHC, by their offsets. */
enum {
    BLOCKS = 0x04,
    COMMAND = 0x0C,
    PRESENT_STATE = 0x24,
    CONTROL = 0x28,
    CLOCK = 0x2C,
    WATERMARKS = 0x44,
    MIXER = 0x48, /* the transfer mode */
    VENDOR = 0xC0,
    VERSION = 0xFC
};

static const uint32_t CLOCK_STABLE = 1 << 3;            /* of the present state */
static const uint32_t DAT0_LEVEL = 1 << 24;             /* likewise */
static const uint32_t LITTLE_ENDIAN = 0x20;             /* of CONTROL */
static const uint32_t ALWAYS_ON = 0xF;                  /* of CLOCK: bits that are always 1 */
static const uint32_t TIMEOUT_AND_RESETS = 0x070F0000;  /* of CLOCK, as in SDHCI */
static const uint32_t CARD_CLOCK = 1 << 8;              /* of VENDOR */
static const uint32_t MIXER_ALWAYS = UINT32_C(1) << 31; /* of MIXER */

/* What the driver takes and gives in their place. */
static const uint32_t SDHCI_STABLE = 1 << 1, SDHCI_CARD_CLOCK = 1 << 2, SDHCI_DAT0 = 1 << 20, SDHCI_VERSION_3 = 2 << 16;

static volatile uint32_t *usdhc(uint32_t offset) { return word_at(CONTROLLER + offset); }

/* The clock of SDHCI divides by 2n, or by 1 where n is 0. The uSDHC divides by a power of two, 1 to 256, and then by 1 to 16: so the
 * least of these products that is not less. */
static uint32_t divider(uint32_t word)
{
    uint32_t half = (word >> 8 & 0xFF) | (word << 2 & 0x300), by = half == 0 ? 1 : 2 * half, power = 1;

    while (16 * power < by)
        power *= 2;
    return (power >> 1) << 8 | ((by + power - 1) / power - 1) << 4;
}

static void set_clock(uint32_t word)
{
    if ((word & SDHCI_CARD_CLOCK) == 0)
        *usdhc(VENDOR) &= ~CARD_CLOCK;
    *usdhc(CLOCK) = (word & TIMEOUT_AND_RESETS) | divider(word) | ALWAYS_ON;
    if ((word & SDHCI_CARD_CLOCK) != 0)
        *usdhc(VENDOR) |= CARD_CLOCK;
}

/* A buffer counts as full, or as empty, where it has a block, or room for one: 128 words at most. */
static void set_blocks(uint32_t word)
{
    uint32_t words = (word & 0xFFF) / 4;

    *usdhc(WATERMARKS) = words << 16 | words;
    *usdhc(BLOCKS) = word;
}

static void write_translated(void *board, uint32_t offset, uint32_t value)
{
    (void)board;
    if (offset == CLOCK) {
        set_clock(value);
    } else if (offset == BLOCKS) {
        set_blocks(value);
    } else if (offset == COMMAND) {
        *usdhc(MIXER) = MIXER_ALWAYS | (value & 0xFFFF);
        *usdhc(COMMAND) = value & 0xFFFF0000;
    } else if (offset == CONTROL) { /* four lines are bit 1, and eight bit 5: here bits 1 and 2. The board has power always. */
        *usdhc(CONTROL) = LITTLE_ENDIAN | (value & 2) | (value >> 3 & 4);
    } else {
        *usdhc(offset) = value;
    }
}

static uint32_t read_translated(void *board, uint32_t offset)
{
    uint32_t word = *usdhc(offset);

    (void)board;
    if (offset == PRESENT_STATE)
        return (word & ~SDHCI_DAT0) | ((word & DAT0_LEVEL) != 0 ? SDHCI_DAT0 : 0);
    if (offset == CLOCK)
        return (word & TIMEOUT_AND_RESETS) | ((*usdhc(PRESENT_STATE) & CLOCK_STABLE) != 0 ? SDHCI_STABLE : 0);
    return offset == VERSION ? SDHCI_VERSION_3 : word;
}

/* Registers of the timer: its control, divider and counter. */
enum { TIMER_CONTROL = 0x00, TIMER_DIVIDER = 0x04, TIMER_COUNTER = 0x24 };
enum { TIMER_ON = 1 << 0, BY_32_KHZ = 4 << 6, FREE_RUN = 1 << 9 };

static uint32_t milliseconds(void *board)
{
    (void)board;
    return *word_at(TIMER + TIMER_COUNTER);
}

/* Registers of the general port: levels, and which pins are outputs. */
enum { LEVELS = 0x00, OUTPUTS = 0x04, SLOT_POWER = 1 << 9 };

bool port_open(struct sdhci_port *port)
{
    *word_at(PINS + LEVELS) |= SLOT_POWER;
    *word_at(PINS + OUTPUTS) |= SLOT_POWER;
    *word_at(TIMER + TIMER_DIVIDER) = 33 - 1;
    *word_at(TIMER + TIMER_CONTROL) = FREE_RUN | BY_32_KHZ | TIMER_ON;
    *port = (struct sdhci_port){.read = read_translated,
                                .write = write_translated,
                                .milliseconds = milliseconds,
                                .base_khz = 198000,
                                .soldered = true};
    return true;
}

/* Registers of the serial line. */
enum { SERIAL_OUT = 0x40, SERIAL_ON = 0x80, SERIAL_SENDS = 0x84, SERIAL_STATUS = 0x94 };
enum { READY_TO_SEND = 1 << 13, ON = 1 << 0, SENDS = 0x4026 };

void port_put(char byte)
{
    *word_at(SERIAL + SERIAL_ON) |= ON;
    *word_at(SERIAL + SERIAL_SENDS) |= SENDS;
    while ((*word_at(SERIAL + SERIAL_STATUS) & READY_TO_SEND) == 0) {
    }
    *word_at(SERIAL + SERIAL_OUT) = (uint8_t)byte;
}

/* A reset, by the watchdog, whose registers have 16 bits. */
void port_off(void) { *(volatile uint16_t *)WATCHDOG = 0; }
