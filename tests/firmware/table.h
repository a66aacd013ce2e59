/* A table from a file of its words, as sdv emit --binary writes it. */
#ifndef TABLE_H
#define TABLE_H
#include <stdint.h>
#include <stdio.h>
#include <stdlib.h>

static void fail(const char *what, const char *which)
{
    fprintf(stderr, "%s %s\n", what, which);
    exit(2);
}

/* The words, in memory of just their size, where a sanitizer sees each word that is read behind them. */
static uint32_t *load_table(const char *name, size_t *words)
{
    static uint8_t bytes[4 * 65536];
    FILE *file = fopen(name, "rb");
    uint32_t *table;
    size_t size, i;

    if (!file)
        fail("cannot use", name);
    size = fread(bytes, 1, sizeof bytes, file);
    fclose(file);
    table = malloc(size ? size : 1);
    if (!table)
        fail("no memory for", name);
    *words = size / 4;
    for (i = 0; i < *words; i++)
        table[i] = bytes[4 * i] | (uint32_t)bytes[4 * i + 1] << 8 | (uint32_t)bytes[4 * i + 2] << 16 | (uint32_t)bytes[4 * i + 3] << 24;
    return table;
}

#endif
