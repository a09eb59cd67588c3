/* SHA-256 (FIPS 180-4) of "abc" and of 56 bytes, which take two blocks. */
#include "io.h"

static const unsigned k[64] = {
    0x428a2f98, 0x71374491, 0xb5c0fbcf, 0xe9b5dba5, 0x3956c25b, 0x59f111f1, 0x923f82a4, 0xab1c5ed5,
    0xd807aa98, 0x12835b01, 0x243185be, 0x550c7dc3, 0x72be5d74, 0x80deb1fe, 0x9bdc06a7, 0xc19bf174,
    0xe49b69c1, 0xefbe4786, 0x0fc19dc6, 0x240ca1cc, 0x2de92c6f, 0x4a7484aa, 0x5cb0a9dc, 0x76f988da,
    0x983e5152, 0xa831c66d, 0xb00327c8, 0xbf597fc7, 0xc6e00bf3, 0xd5a79147, 0x06ca6351, 0x14292967,
    0x27b70a85, 0x2e1b2138, 0x4d2c6dfc, 0x53380d13, 0x650a7354, 0x766a0abb, 0x81c2c92e, 0x92722c85,
    0xa2bfe8a1, 0xa81a664b, 0xc24b8b70, 0xc76c51a3, 0xd192e819, 0xd6990624, 0xf40e3585, 0x106aa070,
    0x19a4c116, 0x1e376c08, 0x2748774c, 0x34b0bcb5, 0x391c0cb3, 0x4ed8aa4a, 0x5b9cca4f, 0x682e6ff3,
    0x748f82ee, 0x78a5636f, 0x84c87814, 0x8cc70208, 0x90befffa, 0xa4506ceb, 0xbef9a3f7, 0xc67178f2};

static const unsigned first[8] = {0x6a09e667, 0xbb67ae85, 0x3c6ef372, 0xa54ff53a,
                                  0x510e527f, 0x9b05688c, 0x1f83d9ab, 0x5be0cd19};

static unsigned state[8], w[64];

static unsigned rotated(unsigned v, int by) { return v >> by | v << (32 - by); }

static void add_block(void) {
    for (int t = 16; t < 64; t++) {
        unsigned a = w[t - 15], b = w[t - 2];
        w[t] = w[t - 16] + (rotated(a, 7) ^ rotated(a, 18) ^ a >> 3)
             + w[t - 7] + (rotated(b, 17) ^ rotated(b, 19) ^ b >> 10);
    }
    unsigned v[8];
    for (int i = 0; i < 8; i++) v[i] = state[i];
    for (int t = 0; t < 64; t++) {
        unsigned a = v[0], e = v[4];
        unsigned t1 = v[7] + k[t] + w[t]
            + (rotated(e, 6) ^ rotated(e, 11) ^ rotated(e, 25)) + ((e & v[5]) ^ (~e & v[6]));
        unsigned t2 = (rotated(a, 2) ^ rotated(a, 13) ^ rotated(a, 22)) + ((a & v[1]) ^ (a & v[2]) ^ (v[1] & v[2]));
        for (int i = 7; i > 0; i--) v[i] = v[i - 1];
        v[4] += t1;
        v[0] = t1 + t2;
    }
    for (int i = 0; i < 8; i++) state[i] += v[i];
}

/* The digest of a text of less than 2^29 bytes; the first four bytes of it are returned. */
static unsigned digest(const char *text) {
    for (int i = 0; i < 8; i++) state[i] = first[i];
    unsigned length = 0, has_end = 0;
    for (;;) {
        for (int i = 0; i < 64; i++) {
            unsigned byte = 0;
            if (!has_end) {
                byte = (unsigned char)text[length];
                if (byte) length++;
                else {
                    byte = 0x80;
                    has_end = i < 56 ? 1 : 2;
                }
            }
            w[i / 4] = w[i / 4] << 8 | byte;
        }
        if (has_end == 1) break;
        add_block();
        if (has_end == 2) {
            has_end = 1;
            for (int i = 0; i < 16; i++) w[i] = 0;
            break;
        }
    }
    w[15] = length * 8;
    add_block();
    for (int i = 0; i < 8; i++) put_hex(state[i], 8);
    put('\n');
    return state[0];
}

int main(void) {
    int wrong = digest("abc") != 0xba7816bfu;
    wrong += digest("abcdbcdecdefdefgefghfghighijhijkijkljklmklmnlmnomnopnopq") != 0x248d6a61u;
    return wrong;
}
