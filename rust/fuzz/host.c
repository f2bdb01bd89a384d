/* The host of the calls: hands the library copies of the files and of the buffer in blocks of
 * exactly their length, whose ends are guarded.
 */
#include <stdint.h>
#include <stdio.h>
#include <stdlib.h>
#include <string.h>
#include <sys/mman.h>

#include "neulenta.h"

enum { COPY, RECONCILE, CHECK, COMPARE, SHEET };
enum { HEAP, BEFORE_GUARD, AFTER_GUARD, TOGETHER };
enum { SCHEMA, POLICIES, FIRST, SECOND, FILES, OUT = FILES, BLOCKS };
enum { GUARD = 4096, SPAN = 1 << 20, STACK = 1 << 15 };

typedef struct host_file {
    const uint8_t *bytes;
    size_t length;
} host_file;

__attribute__((noreturn)) static void fail(const char *what) {
    fprintf(stderr, "host: %s\n", what);
    abort();
}

/* A span of memory between two guards, one span for each block. */
static uint8_t *span(int block) {
    static uint8_t *spans[BLOCKS];
    if (!spans[block]) {
        uint8_t *all = mmap(NULL, GUARD + SPAN + GUARD, PROT_NONE, MAP_PRIVATE | MAP_ANONYMOUS,
                            -1, 0);
        if (all == MAP_FAILED) fail("no memory");
        spans[block] = all + GUARD;
        if (mprotect(spans[block], SPAN, PROT_READ | PROT_WRITE)) fail("no memory");
    }
    return spans[block];
}

/* A copy of the bytes: where AddressSanitizer watches both ends (the library's memcpy and memset
 * are its own), right before a guard, right after one, or right after the block before. */
static uint8_t *placed(int place, int block, uint8_t *before, const uint8_t *bytes, size_t length) {
    uint8_t *copy;
    if (length > SPAN / BLOCKS) fail("a block that is too long");
    if (place == HEAP) copy = malloc(length);
    else if (place == BEFORE_GUARD) copy = span(block) + SPAN - length;
    else if (place == AFTER_GUARD) copy = span(block);
    else copy = before;
    if (!copy) fail("no memory");
    memcpy(copy, bytes, length);
    return copy;
}

/* Fills the stack that the call will use: no answer may depend on what lies there. */
__attribute__((noinline, no_sanitize("address"))) static void fill_stack(uint8_t byte) {
    uint8_t stack[STACK];
    memset(stack, byte, STACK);
    __asm__ volatile("" : : "r"(stack) : "memory");
}

/* The library's answer; `out` is what its buffer holds before and after the call. */
neulenta_answer host_answer(uint32_t call, uint32_t place, const host_file *files, uint16_t a,
                            uint16_t b, uint8_t *out, size_t out_length) {
    uint8_t *block[BLOCKS], *before = span(SCHEMA);
    size_t length[FILES];
    for (int i = 0; i < FILES; i++) {
        length[i] = files[i].length;
        block[i] = placed(place, i, before, files[i].bytes, length[i]);
        before = block[i] + length[i];
    }
    block[OUT] = placed(place, OUT, before, out, out_length);
    fill_stack(0x55 * place);
    neulenta_answer answer;
    switch (call) {
    case COPY:
        answer = neulenta_copy(block[SCHEMA], length[SCHEMA], block[FIRST], length[FIRST],
                               block[OUT], out_length);
        break;
    case RECONCILE:
        answer = neulenta_reconcile(block[SCHEMA], length[SCHEMA], block[POLICIES],
                                    length[POLICIES], a, b, block[OUT], out_length);
        break;
    case CHECK:
        answer = neulenta_check(block[SCHEMA], length[SCHEMA], block[POLICIES], length[POLICIES],
                                a, b, block[FIRST], length[FIRST]);
        break;
    case COMPARE:
        answer = neulenta_compare(block[SCHEMA], length[SCHEMA], block[POLICIES], length[POLICIES],
                                  a, b, block[FIRST], length[FIRST], block[SECOND], length[SECOND]);
        break;
    case SHEET:
        answer = neulenta_sheet(block[SCHEMA], length[SCHEMA], block[FIRST], length[FIRST],
                                block[OUT], out_length);
        break;
    default:
        fail("no such call");
    }
    for (int i = 0; i < FILES; i++)
        if (memcmp(block[i], files[i].bytes, length[i])) fail("the library wrote to a file");
    memcpy(out, block[OUT], out_length);
    if (place == HEAP)
        for (int i = 0; i < BLOCKS; i++) free(block[i]);
    return answer;
}
