/* The host's side, which the other parts cannot name themselves: their open, read and write are Plan 9's. */
#include <time.h>
#include <unistd.h>

void hostputs(char *s, int n)
{
    while (n > 0) {
        int k = write(1, s, n);
        if (k <= 0)
            return;
        s += k;
        n -= k;
    }
}

void hostexit(int s)
{
    _exit(s);
}

unsigned int hostusec(void)
{
    struct timespec t;
    clock_gettime(CLOCK_MONOTONIC, &t);
    return (unsigned)(t.tv_sec * 1000000u + t.tv_nsec / 1000);
}

/* what the sources name and these rows never reach */
#define UNUSED __attribute__((weak))
UNUSED void pexit(char *s, int f)
{
    _exit(3);
}
UNUSED char *clipread(void)
{
    return 0;
}
UNUSED int clipwrite(char *s)
{
    return -1;
}
UNUSED long latin1(unsigned char *k, int n)
{
    return -1;
}
UNUSED void *vmemchr(void *p, int c, int n)
{
    unsigned char *s = p;
    while (n-- > 0)
        if (*s++ == (unsigned char)c)
            return s - 1;
    return 0;
}
UNUSED void *lfdchan(void *f)
{
    return 0;
}
