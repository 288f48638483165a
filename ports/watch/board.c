/* The least that a Cortex-M image needs: vectors, reset, and text and an exit status by semihosting (qemu -semihosting). */
#include <stddef.h>
#include <stdint.h>

#include "requests.h"

extern uint32_t data_start, data_end, data_load, bss_start, bss_end, stack_top;
int main(void);

static int semihosting(int operation, const void *argument) {
    register int r0 __asm__("r0") = operation;
    register const void *r1 __asm__("r1") = argument;
    __asm__ volatile("bkpt 0xab" : "+r"(r0) : "r"(r1) : "memory");
    return r0;
}

void put_text(const char *text) { semihosting(0x04, text); } /* SYS_WRITE0 */

static void leave(uint32_t reason, uint32_t status) {
    uint32_t block[2] = {reason, status};
    semihosting(0x20, block); /* SYS_EXIT_EXTENDED */
    for (;;) {
    }
}

void reset(void) {
    *(volatile uint32_t *)0xE000ED88 |= 0xFu << 20; /* CPACR: the floating-point unit, where there is one */
    __asm__ volatile("dsb\n isb");
    uint32_t *to = &data_start, *from = &data_load;
    while (to < &data_end) {
        *to++ = *from++;
    }
    for (to = &bss_start; to < &bss_end; to++) {
        *to = 0;
    }
    leave(0x20026, (uint32_t)main()); /* ADP_Stopped_ApplicationExit */
}

static void fault(void) {
    put_text("fault\n");
    leave(0x20023, 1); /* ADP_Stopped_RunTimeErrorUnknown */
}

__attribute__((section(".vectors"), used)) static const void *const vector_table[16] = {
    &stack_top, reset, fault, fault, fault, fault, fault, 0, 0, 0, 0, fault, fault, 0, fault, fault};

/* What the module needs beyond the compiler's own library (libgcc: 64-bit division, doubles). A firmware has these from its C library. */
void *memmove(void *to, const void *from, size_t n) {
    uint8_t *t = to;
    const uint8_t *f = from;
    if ((uintptr_t)t - (uintptr_t)f < n) {
        while (n--) {
            t[n] = f[n];
        }
        return to;
    }
    if ((((uintptr_t)t | (uintptr_t)f) & 3) == 0) {
        for (; n >= 4; n -= 4, t += 4, f += 4) {
            *(uint32_t *)(void *)t = *(const uint32_t *)(const void *)f;
        }
    }
    while (n--) {
        *t++ = *f++;
    }
    return to;
}

void *memcpy(void *to, const void *from, size_t n) { return memmove(to, from, n); }

void *memset(void *to, int byte, size_t n) {
    uint8_t *t = to;
    while (n--) {
        *t++ = (uint8_t)byte;
    }
    return to;
}

/* The ordinary Rust version alone compares so. */
int memcmp(const void *a, const void *b, size_t n) {
    const uint8_t *x = a, *y = b;
    for (; n; n--, x++, y++) {
        if (*x != *y) {
            return *x - *y;
        }
    }
    return 0;
}

void __aeabi_memcpy(void *to, const void *from, size_t n) { memmove(to, from, n); }
void __aeabi_memcpy4(void *to, const void *from, size_t n) { memmove(to, from, n); }
void __aeabi_memcpy8(void *to, const void *from, size_t n) { memmove(to, from, n); }
void __aeabi_memmove(void *to, const void *from, size_t n) { memmove(to, from, n); }
void __aeabi_memmove4(void *to, const void *from, size_t n) { memmove(to, from, n); }
void __aeabi_memmove8(void *to, const void *from, size_t n) { memmove(to, from, n); }
void __aeabi_memclr(void *to, size_t n) { memset(to, 0, n); }
void __aeabi_memclr4(void *to, size_t n) { memset(to, 0, n); }
void __aeabi_memclr8(void *to, size_t n) { memset(to, 0, n); }
