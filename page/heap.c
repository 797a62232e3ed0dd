/* malloc, realloc and free of the WebAssembly module, in its own memory, which grows and never shrinks. No proof covers it.

   It is the allocator of Kernighan and Ritchie: each block begins with a head, and the free ones are in a ring in the order
   of their addresses, so that neighbours are joined. The first that is great enough is taken. */
typedef __SIZE_TYPE__ size;

/* 16 bytes, as blocks are aligned. The size is that of the block with its head, in heads. */
struct head {
    struct head *next;
    size heads;
    size unused[2];
};

enum { PAGE = 65536, HEAD = sizeof(struct head) };
_Static_assert(HEAD == 16, "a head isn't 16 bytes");
#define MOST_BYTES ((size)0xfffe0000)

extern char __heap_base[];
static struct head ring = {&ring, 0, {0, 0}};

/* Puts a block into the ring, joined with its free neighbours. */
static void give(struct head *block) {
    struct head *before = &ring;
    while (before->next != &ring && before->next < block) {
        before = before->next;
    }
    block->next = before->next;
    if (block + block->heads == before->next) {
        block->heads += before->next->heads;
        block->next = before->next->next;
    }
    if (before != &ring && before + before->heads == block) {
        before->heads += block->heads;
        before->next = block->next;
    } else {
        before->next = block;
    }
}

/* The memory after the module's data, which is there from the beginning. */
static void give_first(void) {
    static int is_given;
    size begin = ((size)__heap_base + HEAD - 1) & ~(size)(HEAD - 1);
    size end = __builtin_wasm_memory_size(0) * PAGE;
    if (!is_given && end - begin > HEAD) {
        ((struct head *)begin)->heads = (end - begin) / HEAD;
        give((struct head *)begin);
    }
    is_given = 1;
}

/* Gets pages of memory for so many heads. Whether there were any. */
static int grow(size heads) {
    size pages = (heads + PAGE / HEAD - 1) / (PAGE / HEAD), had = __builtin_wasm_memory_grow(0, pages);
    struct head *block = (struct head *)(had * PAGE);
    if (had == (size)-1) {
        return 0;
    }
    block->heads = pages * (PAGE / HEAD);
    give(block);
    return 1;
}

/* Takes the first block that is great enough out of the ring, or the end of it where it is greater. */
static struct head *taken(size heads) {
    struct head *before = &ring, *block = ring.next;
    while (block != &ring && block->heads < heads) {
        before = block;
        block = block->next;
    }
    if (block == &ring) {
        return 0;
    }
    if (block->heads == heads) {
        before->next = block->next;
        return block;
    }
    block->heads -= heads;
    block += block->heads;
    block->heads = heads;
    return block;
}

#ifdef TRIED
/* For tests: which growth is refused, from 1 (0: none), how many there were, and blocks that aren't given back. */
static int refused, growths, blocks;
__attribute__((export_name("refuse"))) void refuse(int which) {
    refused = which;
    growths = 0;
}
__attribute__((export_name("growths"))) int growths_so_far(void) {
    return growths;
}
__attribute__((export_name("blocks"))) int blocks_left(void) {
    return blocks;
}
#define IS_REFUSED (++growths == refused)
#define COUNT(change) (blocks += (change))
#else
#define IS_REFUSED 0
#define COUNT(change) ((void)0)
#endif

__attribute__((export_name("malloc"))) void *malloc(size bytes) {
    size heads = bytes / HEAD + 2;
    struct head *block;
    if (IS_REFUSED || bytes > MOST_BYTES) {
        return 0;
    }
    give_first();
    block = taken(heads);
    if (!block && grow(heads)) {
        block = taken(heads);
    }
    if (!block) {
        return 0;
    }
    COUNT(1);
    return block + 1;
}

__attribute__((export_name("free"))) void free(void *place) {
    if (place) {
        COUNT(-1);
        give((struct head *)place - 1);
    }
}

__attribute__((export_name("realloc"))) void *realloc(void *place, size bytes) {
    size had = place ? (((struct head *)place)[-1].heads - 1) * HEAD : 0;
    void *moved;
    if (place && bytes <= had && bytes > had / 2) {
        return IS_REFUSED ? 0 : place;
    }
    moved = malloc(bytes);
    if (moved && place) {
        __builtin_memcpy(moved, place, had < bytes ? had : bytes);
        free(place);
    }
    return moved;
}
