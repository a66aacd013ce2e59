/* Two calls of the C library that a compiler may put in, for images without one. */
#include <stddef.h>

void *memset(void *to, int byte, size_t count);
void *memcpy(void *to, const void *from, size_t count);

void *memset(void *to, int byte, size_t count)
{
    volatile unsigned char *bytes = to;

    while (count--)
        bytes[count] = (unsigned char)byte;
    return to;
}

void *memcpy(void *to, const void *from, size_t count)
{
    volatile unsigned char *bytes = to;

    while (count--)
        bytes[count] = ((const unsigned char *)from)[count];
    return to;
}
