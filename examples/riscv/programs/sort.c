/* Sorts 40 numbers by insertion, by heap and by halves, and compares what comes out. */
#include "io.h"

enum { MANY = 40 };
static int by_insertion[MANY], by_heap[MANY], by_halves[MANY], spare[MANY];

static void insertion_sort(int *a, int n) {
    for (int i = 1; i < n; i++) {
        int v = a[i], j = i;
        for (; j > 0 && a[j - 1] > v; j--) a[j] = a[j - 1];
        a[j] = v;
    }
}

static void sift(int *a, int from, int n) {
    for (int child; (child = 2 * from + 1) < n; from = child) {
        if (child + 1 < n && a[child] < a[child + 1]) child++;
        if (a[from] >= a[child]) return;
        int v = a[from];
        a[from] = a[child];
        a[child] = v;
    }
}

static void heap_sort(int *a, int n) {
    for (int i = n / 2; i-- > 0;) sift(a, i, n);
    while (n-- > 1) {
        int v = a[0];
        a[0] = a[n];
        a[n] = v;
        sift(a, 0, n);
    }
}

static void merge_sort(int *a, int n) {
    if (n < 2) return;
    int half = n / 2;
    merge_sort(a, half);
    merge_sort(a + half, n - half);
    for (int i = 0; i < half; i++) spare[i] = a[i];
    for (int i = 0, j = half, k = 0; i < half; k++) a[k] = j == n || spare[i] <= a[j] ? spare[i++] : a[j++];
}

int main(void) {
    unsigned random = 1;
    for (int i = 0; i < MANY; i++) {
        random ^= random << 13;
        random ^= random >> 17;
        random ^= random << 5;
        by_insertion[i] = by_heap[i] = by_halves[i] = random;
    }
    insertion_sort(by_insertion, MANY);
    heap_sort(by_heap, MANY);
    merge_sort(by_halves, MANY);
    int wrong = 0;
    for (int i = 0; i < MANY; i++) {
        wrong += by_insertion[i] != by_heap[i] || by_heap[i] != by_halves[i];
        if (i > 0) wrong += by_heap[i - 1] > by_heap[i];
    }
    put_hex(by_heap[0], 8);
    put(' ');
    put_hex(by_heap[MANY - 1], 8);
    put('\n');
    return wrong;
}
