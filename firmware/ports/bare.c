#include "bare.h"

extern const uint32_t table[];
extern const size_t table_words;

uint32_t bare_read(void *board, uint32_t offset) { return *word_at((uintptr_t)board + offset); }

void bare_write(void *board, uint32_t offset, uint32_t value) { *word_at((uintptr_t)board + offset) = value; }

void bare_main(void)
{
    (void)play(table, table_words);
    port_off();
}
