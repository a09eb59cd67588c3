/* A queue in a ring of four places, whose entries are a byte and a half word: two senders, and one receiver that is
   slower. */
#include "io.h"

struct entry {
    signed char sender;
    short value;
};

static struct entry ring[4];
static unsigned char first, count;

static int add(signed char sender, short value) {
    if (count == 4) return 0;
    struct entry *e = &ring[(first + count++) & 3];
    e->sender = sender;
    e->value = value;
    return 1;
}

static int take(struct entry *e) {
    if (count == 0) return 0;
    *e = ring[first];
    first = (first + 1) & 3;
    count--;
    return 1;
}

int main(void) {
    short sent = 0, refused = 0;
    int sum = 0;
    struct entry e;
    for (int turn = 0; turn < 10; turn++) {
        if (add(1, turn)) sent++; else refused++;
        if ((turn & 1) && add(-1, -100 * 3)) sent++;
        if (turn % 4 != 0 && take(&e)) sum += e.sender < 0 ? -e.value : e.value;
    }
    while (take(&e)) sum += e.sender < 0 ? -e.value : e.value;
    put_hex(sent, 2);
    put(' ');
    put_hex(refused, 2);
    put(' ');
    put_hex(sum, 4);
    put('\n');
    return count;
}
