/* Linked with --wrap for `malloc`, `realloc` and `free`, so that the functions below stand in their place, in the library and in the
 * program, and in nothing else. They number the requests for memory, refuse one of them, and count blocks and bytes. */
#ifndef HEAP_H
#define HEAP_H

#include <stdbool.h>
#include <stddef.h>

void *__real_malloc(size_t size);
void *__real_realloc(void *block, size_t size);
void __real_free(void *block);

static long requests_made, refused_request, live_blocks;
static size_t bytes_asked; /* of each block, and of each that grows what is added */
static bool was_to_shrink; /* whether the refused request was to make a block smaller */

/* What stands before each block: its size. */
typedef union {
    size_t size;
    max_align_t aligned;
} head;

static head *head_of(void *block) {
    return block ? (head *)block - 1 : NULL;
}

static void *block_after(head *head, size_t size) {
    if (!head) return NULL;
    head->size = size;
    return head + 1;
}

void *__wrap_malloc(size_t size) {
    if (++requests_made == refused_request) return NULL;
    void *block = block_after(__real_malloc(sizeof(head) + size), size);
    if (block) live_blocks++;
    bytes_asked += size;
    return block;
}

void *__wrap_realloc(void *block, size_t size) {
    size_t before = block ? head_of(block)->size : 0;
    if (++requests_made == refused_request) {
        was_to_shrink = block && size < before;
        return NULL;
    }
    void *moved = block_after(__real_realloc(head_of(block), sizeof(head) + size), size);
    if (moved && !block) live_blocks++;
    bytes_asked += size > before ? size - before : 0;
    return moved;
}

void __wrap_free(void *block) {
    if (block) live_blocks--;
    __real_free(head_of(block));
}

#endif
