/* All that the archive needs from outside: with these two functions it links to a program without any library. */
#include <stddef.h>

void *memcpy(void *restrict to, const void *restrict from, size_t length);
void *memset(void *to, int byte, size_t length);
void outside(void);

void *memcpy(void *restrict to, const void *restrict from, size_t length)
{
    unsigned char *next = to;
    const unsigned char *left = from;
    while (length-- > 0) {
        *next++ = *left++;
    }
    return to;
}

void *memset(void *to, int byte, size_t length)
{
    unsigned char *next = to;
    while (length-- > 0) {
        *next++ = (unsigned char)byte;
    }
    return to;
}

void outside(void)
{
}
