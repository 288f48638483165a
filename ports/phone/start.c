/* A program for AArch64 Linux with no C library: text by the system call `write`, and what the module may need of one. */
#include <stddef.h>

#include "requests.h"

int main(void);

static long call(long number, long a, long b, long c) {
    register long x8 __asm__("x8") = number;
    register long x0 __asm__("x0") = a;
    register long x1 __asm__("x1") = b;
    register long x2 __asm__("x2") = c;
    __asm__ volatile("svc 0" : "+r"(x0) : "r"(x8), "r"(x1), "r"(x2) : "memory");
    return x0;
}

void put_text(const char *text) {
    size_t length = 0;
    while (text[length]) {
        length++;
    }
    call(64, 1, (long)text, (long)length);
}

void _start(void) {
    call(94, main(), 0, 0); /* exit_group */
    for (;;) {
    }
}

void *memmove(void *to, const void *from, size_t n) {
    unsigned char *t = to;
    const unsigned char *f = from;
    if ((size_t)t - (size_t)f < n) {
        while (n--) {
            t[n] = f[n];
        }
    } else {
        while (n--) {
            *t++ = *f++;
        }
    }
    return to;
}

void *memcpy(void *to, const void *from, size_t n) { return memmove(to, from, n); }

void *memset(void *to, int byte, size_t n) {
    unsigned char *t = to;
    while (n--) {
        *t++ = (unsigned char)byte;
    }
    return to;
}
