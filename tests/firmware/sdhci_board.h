/*
 * What the tests of the sample driver stand on: a port to the model, sorts of controllers and cards, the commands that bring a card
 * up, and reads and writes as a script makes them.
 */
#ifndef SDHCI_BOARD_H
#define SDHCI_BOARD_H
#include <setjmp.h>
#include <stdbool.h>
#include <stdint.h>

#include "../../firmware/sdhci.h"
#include "sdhci_model.h"

#define MILLISECONDS ((uint64_t)1000000)

extern struct sdhci_model model;
extern struct sdhci host;
extern struct sdhci_answer answer; /* of the last command */

/* THE TEST: what it is called, beside what it runs, and where it goes when something is wrong */

extern const char *test_name;
extern char sort[128];
extern jmp_buf test_end;

/* Says what is wrong, and ends the test. */
void expect(bool holds, const char *what);
void expect_no_rule_broken(void);

/* CONTROLLERS AND CARDS */

enum { SORTS = 64 };

/* A controller and card without oddities, and the sorts that most tests run beside. */
struct model_setup usual(void);
struct model_setup sort_of(uint32_t number);

/* A new model, and the start of the driver over it; then also the bring-up of the card. */
bool start(const struct model_setup *setup, uint32_t base_khz, bool soldered);
void begin(const struct model_setup *setup);

/* COMMANDS: true if the answer came well. Those with data have the data lines that the card uses; blocks 0: until CMD12. */

bool send_plain(uint32_t index, uint32_t argument, enum sdhci_response response);
bool send_busy(uint32_t index, uint32_t argument);
bool send_data(uint32_t index, uint32_t argument, enum sdhci_direction direction, uint32_t bytes, uint32_t blocks);

uint32_t address(uint32_t block);
uint32_t rca(void);
enum card_state state(void); /* as the last answer tells it */

bool identify(void); /* up to CMD3 */
bool bring_up(void);

/* Brings the card into the transfer state and waits until it is ready, as a script does. */
bool recover(void);

/* BLOCKS: as a script moves them, up to the end of busy. `told`: the command tells the controller how many there are. */

enum { MOST = 8 };
extern uint8_t given[MOST * 512], taken[MOST * 512 + 4];

void fill(uint32_t seed, uint32_t blocks); /* the blocks that are given */
bool is_stored(uint32_t block, uint32_t blocks);
bool write_blocks(uint32_t block, uint32_t blocks, bool told);
bool read_blocks(uint32_t block, uint32_t blocks, bool told);

#endif
