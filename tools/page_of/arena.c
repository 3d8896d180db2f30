// The heap of the player's module: a bounded arena behind what a call is given, all of which is given
// up with the call. The kit's own heap is the C library's, which WebAssembly does not have.
//
// A block has a power of two of bytes, of which a head in front of it tells. A freed block is used
// again by the next that wants its size. What is refused is refused as the C library refuses it.

typedef unsigned long size;
typedef unsigned char byte;

enum { ALIGNED = 16, PAGE = 65536, SIZES = 64 };

// The head of a block, as wide as a block is aligned.
typedef struct Block {
    size kind;
    struct Block *next;
} Block;

// What the kit's heap answers: whether there is memory, and where.
typedef struct {
    size ok;
    byte *at;
} Tried;

// The first byte of the arena, and the first behind all blocks that were given since it began.
static byte *front, *end;
// The freed blocks of each size.
static Block *freed[SIZES];

// Begins with an empty arena at an address, up to the end of the memory.
__attribute__((export_name("arena_begin"))) void arena_begin(byte *at) {
    front = end = at + (-(size)at & (ALIGNED - 1));
    __builtin_memset(freed, 0, sizeof freed);
}

// Ends with it: nothing stays of what it held.
__attribute__((export_name("arena_end"))) void arena_end(void) {
    __builtin_memset(front, 0, end - front);
    arena_begin(front);
}

static size room_of(size kind) {
    return (size)1 << kind;
}

// The kind of the smallest block that holds so many bytes.
static size kind_of(size count) {
    return count <= ALIGNED ? 4 : SIZES - __builtin_clzl(count - 1);
}

// A block that was never given, where the memory has one.
static Block *new_block(size kind) {
    size left = __builtin_wasm_memory_size(0) * PAGE - (size)end;
    if (left < sizeof(Block) || left - sizeof(Block) < room_of(kind)) {
        return 0;
    }
    Block *block = (Block *)end;
    end += sizeof(Block) + room_of(kind);
    block->kind = kind;
    return block;
}

Tried rattle_alloc(size count, size aligned) {
    if (count > (size)1 << 62) {
        return (Tried){0, 0};
    }
    size kind = kind_of(count);
    Block *block = freed[kind];
    if (block) {
        freed[kind] = block->next;
    } else {
        block = new_block(kind);
    }
    return block ? (Tried){1, (byte *)(block + 1)} : (Tried){0, 0};
}

void rattle_dealloc(byte *at) {
    Block *block = (Block *)at - 1;
    block->next = freed[block->kind];
    freed[block->kind] = block;
}

// A block of another size, which may stand elsewhere, with the first bytes of the old one.
Tried rattle_realloc(byte *at, size kept, size count, size aligned) {
    Block *block = (Block *)at - 1;
    if (count <= room_of(block->kind)) {
        return (Tried){1, at};
    }
    Tried tried = rattle_alloc(count, aligned);
    if (tried.ok) {
        __builtin_memcpy(tried.at, at, kept);
        rattle_dealloc(at);
    }
    return tried;
}
