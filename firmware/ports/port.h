/*
 * A port brings the sample driver to a board. Each file has the first two calls for one board, and says what the board owes; play.c
 * plays a script's table by them. bench/ports.sh runs every port on QEMU. None was tried on silicon.
 */
#ifndef PORT_H
#define PORT_H

#include <stddef.h>

#include "../sdhci.h"

/* Finds the controller, sees to its power, clock and pins, and says how the driver reaches it. False if there is none. */
bool port_open(struct sdhci_port *port);

/* Prints a character of the trace. */
void port_put(char byte);

/* Plays the table, and prints the trace of docs/TRACES.md. Below it, the line `sum` has the sum of all bytes received in blocks. The
 * blocks that the script gives count up: byte b of block n, of all that it gives, is b + n. False if the run did not end as the script
 * says: there is no controller, no card or no table, or the player stopped. */
bool play(const uint32_t *table, size_t words);

#endif
