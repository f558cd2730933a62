/* All that the archive asks for, and an entry: a program without any C library, of which only that it links is tried. */
#include "fun.h"

void *memcpy(void *to, const void *from, size_t count) {
    unsigned char *t = to;
    const unsigned char *f = from;
    while (count--)
        *t++ = *f++;
    return to;
}

void *memmove(void *to, const void *from, size_t count) {
    unsigned char *t = to;
    const unsigned char *f = from;
    if (t <= f)
        return memcpy(to, from, count);
    while (count--)
        t[count] = f[count];
    return to;
}

void *memset(void *at, int byte, size_t count) {
    unsigned char *a = at;
    while (count--)
        *a++ = (unsigned char)byte;
    return at;
}

void _start(void) {
    static struct fun_rule rule;
    fun_rule_new(&rule);
    for (;;) {
    }
}
