#include <stdio.h>
#include <stdlib.h>

/* What allocations.f90 does, by malloc and free, with 8 bytes for a word. */
enum { live = 10000, times = 1000000 };

struct holder {
    long long *words;
    int size;
};

static struct holder held[live];

static void allocate(struct holder *one, int size) {
    one->words = malloc(8 * (size_t)size);
    one->size = size;
    for (int i = 0; i < size; i++)
        one->words[i] = 0;
}

int main(void) {
    for (int i = 0; i < live; i++)
        allocate(&held[i], (i + 1) % 16);
    int x = 12345;
    for (int i = 0; i < times; i++) {
        x = (x * 73 + 41) % 20011;
        struct holder *one = &held[x % live];
        free(one->words);
        allocate(one, x % 16);
    }
    int sum = 0;
    for (int i = 0; i < live; i++)
        sum += held[i].size;
    printf("%d\n", sum);
    return 0;
}
