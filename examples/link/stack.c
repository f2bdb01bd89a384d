/* Measures the stack that each call needs, on the largest files, and holds it to the header; then
 * makes each call in a thread of the size that the header names. The last line is 'N passed, M
 * failed'.
 *
 *   cc -I include examples/link/stack.c target/staticlib/libexports.a -o stack && ./stack
 */
#define _DEFAULT_SOURCE
#include <limits.h>
#include <pthread.h>
#include <stdio.h>
#include <stdlib.h>
#include <sys/mman.h>
#include <sys/wait.h>
#include <ucontext.h>
#include <unistd.h>

#include "neulenta.h"

enum { NODES = 64, POLICIES = 16, MOST_SUCCESSORS = 8, VARIABLES = 4 };
enum { ROOM = 1 << 16, OLD = 0xa5 };

/* A file, written field by field. */
typedef struct file {
    uint8_t bytes[ROOM];
    size_t length;
} file;

static void put(file *f, int byte) { f->bytes[f->length++] = (uint8_t)byte; }

static void put_mark(file *f, const char *letters) {
    put(f, letters[0]);
    put(f, letters[1]);
}

static void put_i32(file *f, uint32_t bits) {
    for (int shift = 24; shift >= 0; shift -= 8) put(f, bits >> shift & 0xff);
}

static int successors(int node) {
    int above = NODES - 1 - node;
    return above < MOST_SUCCESSORS ? above : MOST_SUCCESSORS;
}

static void put_range(file *f) {
    put_i32(f, 0x80000000);
    put_i32(f, 0x7fffffff);
}

/* 64 nodes with all the successors that they can have and four numbers each: kind 0, so that all
 * are reached, or kind 1. */
static void put_schema(file *f, int kind) {
    put_mark(f, "SH");
    put(f, NODES);
    for (int node = 0; node < NODES; node++) {
        put_mark(f, "SN");
        put(f, successors(node) ? kind : 1);
        put(f, successors(node));
        for (int i = 1; i <= successors(node); i++) put(f, node + i);
        put(f, VARIABLES);
        for (int v = 0; v < VARIABLES; v++) {
            put(f, 0);
            put_range(f);
        }
    }
}

/* Sixteen policies, each with a PN of every node. */
static void put_policies(file *f, int kind) {
    for (int policy = 0; policy < POLICIES; policy++) {
        put_mark(f, "PH");
        put_i32(f, 0x0000ffff);
        put(f, NODES);
        for (int node = 0; node < NODES; node++) {
            put_mark(f, "PN");
            put(f, node);
            for (int i = 0; kind == 1 && i < successors(node); i++) put(f, policy);
            for (int v = 0; v < VARIABLES; v++) put_range(f);
        }
    }
}

/* What all processes see. */
static struct shared {
    file schema, policies, instance;
    neulenta_answer answer;
    size_t depth;
} *shared;

#define BYTES(name) shared->name.bytes, shared->name.length

static void reconcile(void) {
    shared->answer = neulenta_reconcile(BYTES(schema), BYTES(policies), 9, 10,
                                        shared->instance.bytes, ROOM);
}

static void check(void) {
    shared->answer = neulenta_check(BYTES(schema), BYTES(policies), 9, 10, BYTES(instance));
}

static void compare(void) {
    shared->answer = neulenta_compare(BYTES(schema), BYTES(policies), 9, 10, BYTES(instance),
                                      BYTES(instance));
}

static void copy(void) {
    static uint8_t out[NEULENTA_LONGEST];
    shared->answer = neulenta_copy(BYTES(schema), BYTES(instance), out, sizeof out);
}

static void sheet(void) {
    static uint8_t out[NEULENTA_LONGEST_SHEET];
    shared->answer = neulenta_sheet(BYTES(schema), BYTES(instance), out, sizeof out);
}

/* How many bytes of a stack of its own the call writes. The stack is filled byte by byte: the
 * call must be the first to use memset. */
static void measure(void (*call)(void)) {
    static volatile uint8_t stack[ROOM];
    static ucontext_t here, there;
    size_t untouched = 0;
    for (size_t i = 0; i < ROOM; i++) stack[i] = OLD;
    getcontext(&there);
    there.uc_stack.ss_sp = (void *)stack;
    there.uc_stack.ss_size = ROOM;
    there.uc_link = &here;
    makecontext(&there, call, 0);
    swapcontext(&here, &there);
    while (untouched < ROOM && stack[untouched] == OLD) untouched++;
    shared->depth = ROOM - untouched;
}

static void *in_thread(void *call) {
    (*(void (**)(void))call)();
    return NULL;
}

/* The call in a thread of the least size that the header names. */
static void run_thread(void (*call)(void)) {
    pthread_attr_t attributes;
    pthread_t thread;
    if (pthread_attr_init(&attributes) ||
        pthread_attr_setstacksize(&attributes, PTHREAD_STACK_MIN + NEULENTA_STACK) ||
        pthread_create(&thread, &attributes, in_thread, &call) || pthread_join(thread, NULL))
        exit(1);
}

/* Whether a process of its own, in which nothing was called before, runs the call to its end and
 * the call answers 0. */
static int runs(void (*run)(void (*)(void)), void (*call)(void)) {
    int status = -1;
    shared->answer.number = UINT32_MAX;
    fflush(stdout);
    pid_t child = fork();
    if (child == 0) {
        run(call);
        exit(0);
    }
    return child > 0 && waitpid(child, &status, 0) == child && status == 0 &&
           shared->answer.number == NEULENTA_SUCCESS;
}

static int passed, failed;

static void count(int good) {
    puts(good ? "" : ": FAILED");
    good ? passed++ : failed++;
}

static void holds(const char *name, void (*call)(void), size_t stack) {
    int good = runs(measure, call) && shared->depth <= stack && stack <= NEULENTA_STACK;
    printf("%s: %zu of %zu bytes of stack", name, shared->depth, stack);
    count(good);
    printf("%s in a thread", name);
    count(runs(run_thread, call));
}

int main(void) {
    shared = mmap(NULL, sizeof *shared, PROT_READ | PROT_WRITE, MAP_SHARED | MAP_ANONYMOUS, -1, 0);
    if (shared == MAP_FAILED) return 2;
    for (int kind = 0; kind <= 1; kind++) {
        shared->schema.length = shared->policies.length = 0;
        put_schema(&shared->schema, kind);
        put_policies(&shared->policies, kind);
        holds("reconcile", reconcile, NEULENTA_RECONCILE_STACK);
        shared->instance.length = shared->answer.value;
        holds("check", check, NEULENTA_CHECK_STACK);
        holds("compare", compare, NEULENTA_COMPARE_STACK);
        holds("copy", copy, NEULENTA_COPY_STACK);
        holds("sheet", sheet, NEULENTA_SHEET_STACK);
    }
    printf("%d passed, %d failed\n", passed, failed);
    return failed != 0;
}
