/* The heap of the library on 64-bit ARM, in place of the kit's, which is for x86-64 alone. No proof covers it. */
#include <stddef.h>
#include <stdint.h>
#include <stdlib.h>

/* A block, or a refusal: `is_given` is 0 then, and `place` is never null. */
struct answer {
    uint64_t is_given;
    void *place;
};

static char none[16];

static struct answer answer_of(void *block) {
    struct answer answer;
    answer.is_given = block != NULL;
    answer.place = block != NULL ? block : none;
    return answer;
}

/* `malloc` aligns for every type of the library; a block of no bytes takes some, so that it has a place of its own. */
static size_t taken(size_t size, size_t alignment) {
    return size != 0 ? size : alignment;
}

struct answer rattle_alloc(size_t size, size_t alignment) {
    return answer_of(malloc(taken(size, alignment)));
}

struct answer rattle_realloc(void *block, size_t before, size_t size, size_t alignment) {
    (void)before;
    return answer_of(realloc(block, taken(size, alignment)));
}

void rattle_dealloc(void *block) {
    free(block);
}
