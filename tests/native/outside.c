/* All that librecorder.a may take from outside: if it asks for another name, it does not link with this alone. */
#include <stddef.h>

void *memcpy(void *to, const void *from, size_t n)
{
    (void)from, (void)n;
    return to;
}

void *memset(void *to, int byte, size_t n)
{
    (void)byte, (void)n;
    return to;
}
