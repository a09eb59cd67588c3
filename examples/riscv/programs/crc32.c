/* CRC-32 (ISO 3309, as in Ethernet and zip) of the digits 1 to 9, bit by bit, and by a table of 16 entries. It is
   cbf43926. */
#include "io.h"

static const char text[] = "123456789";
static unsigned table[16];

static unsigned shifted(unsigned crc, int bits) {
    while (bits-- > 0) crc = crc & 1 ? crc >> 1 ^ 0xedb88320u : crc >> 1;
    return crc;
}

int main(void) {
    unsigned by_bits = ~0u, by_table = ~0u;
    for (int i = 0; i < 16; i++) table[i] = shifted(i, 4);
    for (const char *s = text; *s; s++) {
        by_bits = shifted(by_bits ^ (unsigned char)*s, 8);
        by_table ^= (unsigned char)*s;
        by_table = table[by_table & 15] ^ by_table >> 4;
        by_table = table[by_table & 15] ^ by_table >> 4;
    }
    put_hex(~by_bits, 8);
    put('\n');
    return by_bits != by_table || ~by_bits != 0xcbf43926u;
}
