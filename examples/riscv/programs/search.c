/* Looks for words in a text, byte by byte, and by Horspool's table of how far to go on after the last byte of a place
   that does not match. */
#include "io.h"

static const char text[] = "she sells sea shells by the sea shore; the shells that she sells are sea shells for sure";
static unsigned char step[128];

static int length(const char *s) {
    int n = 0;
    while (s[n]) n++;
    return n;
}

static int by_bytes(const char *word, int from) {
    for (int at = from; text[at]; at++) {
        int k = 0;
        while (word[k] && word[k] == text[at + k]) k++;
        if (!word[k]) return at;
    }
    return -1;
}

static int by_table(const char *word, int from) {
    int n = length(word), end = length(text);
    for (int i = 0; i < 128; i++) step[i] = n;
    for (int i = 0; i + 1 < n; i++) step[(unsigned char)word[i]] = n - 1 - i;
    for (int at = from; at + n <= end; at += step[(unsigned char)text[at + n - 1]]) {
        int k = n;
        while (k > 0 && word[k - 1] == text[at + k - 1]) k--;
        if (k == 0) return at;
    }
    return -1;
}

static const char *const words[] = {"shells", "sea", "sure", "shark"};

int main(void) {
    int wrong = 0;
    for (int w = 0; w < 4; w++) {
        int at = -1;
        do {
            int other = by_table(words[w], at + 1);
            at = by_bytes(words[w], at + 1);
            wrong += at != other;
            put_hex(at, 2);
            put(at < 0 ? '\n' : ' ');
        } while (at >= 0);
    }
    return wrong;
}
