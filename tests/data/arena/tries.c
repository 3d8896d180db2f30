// Tries the heap of the page's player (tools/page_of/arena.c) on this machine: blocks at random, each
// with bytes of its own, in a memory that they often fill. Ends with a line for the first fault.
#include <stdio.h>
#include <stdlib.h>
#include <string.h>

enum { MEMORY = 1 << 20, BLOCKS = 100, STEPS = 40000, LARGEST = 60000 };

static unsigned char memory[MEMORY] __attribute__((aligned(65536)));

// What WebAssembly has in this place: the pages of the memory, counted from the address 0.
#define __builtin_wasm_memory_size(it) ((size)(memory + MEMORY) / 65536)
#include ARENA

// A block that is lent, its length, and the byte with which it is filled.
static struct {
    unsigned char *at;
    size length;
    unsigned char mark;
} blocks[BLOCKS];

static void demand(int holds, const char *what) {
    if (!holds) {
        puts(what);
        exit(1);
    }
}

static size any(size below) {
    return (size)rand() % below;
}

static size any_length(void) {
    return any(4) ? any(300) : any(20) ? any(LARGEST) : (size)1 << any(64);
}

static void check(int it, size length) {
    for (size at = 0; at < length; at++) {
        demand(blocks[it].at[at] == blocks[it].mark, "a block lost its bytes");
    }
}

static void fill(int it, unsigned char *at, size length) {
    demand((size)at % 16 == 0, "a block is not aligned");
    demand(at >= memory + 16 && length <= MEMORY && at + length <= memory + MEMORY,
           "a block is not in the memory");
    blocks[it].at = at;
    blocks[it].length = length;
    blocks[it].mark = (unsigned char)(1 + any(255));
    memset(at, blocks[it].mark, length);
}

static int takes(int it) {
    size length = any_length();
    Tried tried = rattle_alloc(length, 16);
    if (tried.ok) {
        fill(it, tried.at, length);
    }
    return tried.ok != 0;
}

static int resizes(int it) {
    size length = any_length(), kept = blocks[it].length < length ? blocks[it].length : length;
    Tried tried = rattle_realloc(blocks[it].at, kept, length, 16);
    if (tried.ok) {
        blocks[it].at = tried.at;
        check(it, kept);
        fill(it, tried.at, length);
    }
    return tried.ok != 0;
}

static void gives_back(int it) {
    rattle_dealloc(blocks[it].at);
    blocks[it].at = 0;
}

// One life of the heap: its blocks come and go. Counts what was given and what was refused.
static void live(int counts[2]) {
    arena_begin(memory + 1);
    memset(blocks, 0, sizeof blocks);
    for (int step = 0; step < STEPS; step++) {
        int it = any(BLOCKS);
        if (!blocks[it].at) {
            counts[takes(it)]++;
            continue;
        }
        check(it, blocks[it].length);
        if (any(3)) {
            gives_back(it);
        } else {
            counts[resizes(it)]++;
        }
    }
    for (int it = 0; it < BLOCKS; it++) {
        check(it, blocks[it].at ? blocks[it].length : 0);
    }
    arena_end();
    for (size at = 0; at < MEMORY; at++) {
        demand(memory[at] == 0, "bytes stay behind the end");
    }
}

int main(int count, char **words) {
    int counts[2] = {0, 0};
    srand(count > 1 ? (unsigned)atoi(words[1]) : 1);
    for (int life = 0; life < 3; life++) {
        live(counts);
    }
    demand(counts[1] > STEPS / 3, "too little was given");
    demand(counts[0] > STEPS / 1000, "nothing was refused");
    printf("%d given, %d refused\n", counts[1], counts[0]);
    return 0;
}
