/* What the ports without an operating system share. They run with the memory unit off, so each access of a register is one access of
 * the bus, in the order of the program, and nothing is cached. */
#ifndef BARE_H
#define BARE_H

#include "port.h"

/* The word at an address. */
static inline volatile uint32_t *word_at(uintptr_t address) { return (volatile uint32_t *)address; }

/* Reads and writes of a controller whose registers begin at `board`. */
uint32_t bare_read(void *board, uint32_t offset);
void bare_write(void *board, uint32_t offset, uint32_t value);

/* The first instructions, of aarch64.S or arm.S, call it with a stack. It plays the table that the image was linked with. */
void bare_main(void);

/* The port's: ends the emulation, behind the last line. */
void port_off(void);

/* aarch64.S: the processor's counter, and how often it counts in a second. The firmware before the image has set that. */
uint64_t counter(void);
uint64_t counter_frequency(void);
uint32_t counter_milliseconds(void *board);

/* aarch64.S: SYSTEM_OFF, a call of PSCI, by one of two instructions. */
void psci_off_by_hvc(void);
void psci_off_by_smc(void);

#endif
