/*
 * tables TABLE: a table is one; with another magic, version or size, or cut to another length, it is none; with other numbers
 * of moves and commands it is one. Prints a line for each word, with a digit for each of 36 changes of it: 1 where the words
 * are a table still, and 0 where they are none.
 */
#include <string.h>

#ifdef PROVED
#include "../../firmware/sdv_player.h"
#else
#include "../../firmware/sdv_step.h"
#endif
#include "table.h"

static uint32_t changed_word(uint32_t word, uint32_t way)
{
    switch (way) {
    case 32: return 0;
    case 33: return 0xFFFFFFFFu;
    case 34: return word + 1;
    case 35: return word - 1;
    default: return word ^ 1u << way;
    }
}

/* What a change of a word of the header does to a table: 1 or 0, and 2 where that depends on the rest. */
static int known(size_t place, uint32_t word, uint32_t changed)
{
    if (word == changed || (place >= 4 && place < 8))
        return 1;
    if (place == 0 || (place == 1 && (word & 0xFF) != (changed & 0xFF)) || (place == 2 && word >> 16 != changed >> 16))
        return 0;
    return 2;
}

static void change_word(uint32_t *table, size_t words, size_t place)
{
    uint32_t word = table[place], way;

    for (way = 0; way < 36; way++) {
        int is, wanted = known(place, word, changed_word(word, way));

        table[place] = changed_word(word, way);
        is = (int)sdv_is_table(table, words);
        if (is != 0 && is != 1)
            fail("neither 1 nor 0:", "");
        if (wanted != 2 && is != wanted)
            fail("a changed table:", is ? "it is one" : "it is none");
        putchar(is ? '1' : '0');
    }
    putchar('\n');
    table[place] = word;
}

/* The first words of a table, in memory of just their size, and once more with a header that says so. */
static void cut(const uint32_t *table, size_t words)
{
    uint32_t *front = malloc(words ? 4 * words : 1);

    if (!front)
        fail("no memory", "");
    memcpy(front, table, 4 * words);
    if (sdv_is_table(front, words))
        fail("a cut table is one", "");
    if (words > 2)
        front[2] = (front[2] & 0xFFFF) | (uint32_t)words << 16;
    putchar(sdv_is_table(front, words) ? '1' : '0');
    free(front);
}

int main(int count, char **arguments)
{
    uint32_t *table;
    size_t words, i;

    if (count != 2)
        fail("usage: tables TABLE", "");
    table = load_table(arguments[1], &words);
    if (!sdv_is_table(table, words))
        fail("no table:", arguments[1]);
    for (i = 0; i < words; i++)
        change_word(table, words, i);
    for (i = 0; i < words; i++)
        cut(table, i);
    putchar('\n');
    free(table);
    return 0;
}
