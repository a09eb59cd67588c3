/* What a program can do outside itself: write bytes. Main's value is the exit code. */

static inline void put(char byte) {
    register int a0 __asm__("a0") = 1;
    register const char *a1 __asm__("a1") = &byte;
    register int a2 __asm__("a2") = 1;
    register int a7 __asm__("a7") = 64;
    __asm__ volatile("ecall" : "+r"(a0) : "r"(a1), "r"(a2), "r"(a7) : "memory");
}

/* The lowest digits of a number, in hexadecimal. */
static void __attribute__((noinline)) put_hex(unsigned value, int digits) {
    while (digits > 0) {
        digits--;
        unsigned digit = value >> (4 * digits) & 15;
        put(digit < 10 ? '0' + digit : 'a' + digit - 10);
    }
}
