/* What arena_times does to an arena, done by glibc's malloc and free: the same sizes in the same order. A cell
   has 16 bytes. With the word `cleared` a block's cells are written when it is taken, as the arena does. */
#include <stdint.h>
#include <stdio.h>
#include <stdlib.h>
#include <string.h>
#include <time.h>

enum { CELL = 16, BLOCK = 100 };

static uint64_t state;
static int clears;
/* What is stored here is seen, so that no call of malloc is left out. */
static void *volatile seen;

static uint32_t below(uint32_t bound) {
    state = state * 6364136223846793005u + 1442695040888963407u;
    return (uint32_t)(state >> 33) % bound;
}

static void *block_of(uint32_t cells) {
    void *block = malloc((size_t)cells * CELL);
    if (!block)
        exit(1);
    if (clears)
        memset(block, 0, (size_t)cells * CELL);
    seen = block;
    return block;
}

static void stack_order(uint32_t depth) {
    if (depth == 0)
        return;
    void *block = block_of(1 + below(BLOCK));
    stack_order(depth - 1);
    free(block);
}

static void random_turns(void **table, uint32_t entries, uint32_t turns) {
    for (uint32_t turn = 0; turn < turns; turn++) {
        uint32_t entry = below(entries);
        uint32_t cells = 1 + below(BLOCK);
        if (table[entry]) {
            free(table[entry]);
            table[entry] = NULL;
        } else {
            table[entry] = block_of(cells);
        }
    }
}

static double now(void) {
    struct timespec time;
    clock_gettime(CLOCK_THREAD_CPUTIME_ID, &time);
    return (double)time.tv_sec + (double)time.tv_nsec / 1e9;
}

int main(int count, char **words) {
    char order[8];
    uint32_t blocks, times;
    clears = count > 1 && !strcmp(words[1], "cleared");
    while (scanf("%7s %u %u", order, &blocks, &times) == 3) {
        void **table = calloc(blocks, sizeof *table);
        if (!table)
            return 1;
        state = 1;
        double start = now();
        if (!strcmp(order, "stack"))
            for (uint32_t round = 0; round < times; round++)
                stack_order(blocks);
        else
            random_turns(table, blocks, times);
        printf("%.9f\n", now() - start);
        for (uint32_t entry = 0; entry < blocks; entry++)
            free(table[entry]);
        free(table);
    }
    return 0;
}
