/* The Fibonacci numbers by a loop and by two calls each: most of the time goes to calls, returns and the stack. */
#include "io.h"

static unsigned by_loop(unsigned n) {
    unsigned a = 0, b = 1;
    while (n-- > 0) {
        unsigned c = a + b;
        a = b;
        b = c;
    }
    return a;
}

static unsigned __attribute__((noinline)) by_calls(unsigned n) {
    return n < 2 ? n : by_calls(n - 1) + by_calls(n - 2);
}

int main(void) {
    unsigned last = by_calls(7);
    put_hex(last, 2);
    put('\n');
    return last != by_loop(7);
}
