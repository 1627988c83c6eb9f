/* The loads of crates/f3_heap_speed over calloc and free: exchange LIVE WIDEST TAKES, and frames HOLES CALLS. */
#include <stdint.h>
#include <stdio.h>
#include <stdlib.h>
#include <string.h>

static void **queue;
static size_t size, first, count;

static void push(void *block) {
    queue[(first + count) % size] = block;
    count += 1;
}

static void *pop(void) {
    void *block = queue[first];
    first = (first + 1) % size;
    count -= 1;
    return block;
}

static void turn(uint32_t number) {
    if (number % 2 == 1) push(pop());
}

static void begin(size_t blocks) {
    size = blocks + 1;
    queue = calloc(size, sizeof *queue);
}

static void exchange(size_t live, uint32_t widest, uint64_t takes) {
    uint32_t number = 12345;
    begin(live);
    for (uint64_t taken = 0; taken < takes; taken++) {
        number = number * 1664525u + 1013904223u;
        if (count >= live) {
            turn(number >> 20);
            turn(number >> 21);
            free(pop());
        }
        push(calloc((number >> 24 & widest) + 1, 8));
    }
}

static void holes(size_t n) {
    begin(2 * n);
    for (size_t i = 0; i < 2 * n; i++) push(calloc(1, 8));
    for (size_t i = 0; i < n; i++) {
        free(pop());
        push(pop());
    }
}

static int call(void) {
    void *volatile outer = calloc(20, 8);
    void *volatile inner = calloc(7, 8);
    int made = outer && inner;
    free(inner);
    free(outer);
    return made;
}

static void frames(uint64_t calls) {
    uint64_t made = 0;
    for (uint64_t i = 0; i < calls; i++) made += call();
    printf("%lu calls\n", (unsigned long)made);
}

int main(int argc, char **argv) {
    if (argc == 5 && !strcmp(argv[1], "exchange")) exchange(atol(argv[2]), atol(argv[3]), atol(argv[4]));
    else if (argc == 4 && !strcmp(argv[1], "frames")) {
        holes(atol(argv[2]));
        frames(atol(argv[3]));
    } else return 2;
    return 0;
}
