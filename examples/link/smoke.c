/* Calls each function of the static library on the worked example and on refusals; the last
 * line is 'N passed, M failed'.
 *
 *   cc -I include examples/link/smoke.c target/staticlib/libexports.a -o smoke && ./smoke
 */
#include <inttypes.h>
#include <stdio.h>
#include <string.h>

#include "neulenta.h"

static const uint8_t schema[] = {'S', 'H', 3, 'S', 'N', 1, 2, 1, 2, 0, 'S', 'N', 1, 0, 1, 0,
                                 0, 0, 0, 1, 0, 0, 0, 10, 'S', 'N', 1, 0, 0};
static const uint8_t policies[] = {'P', 'H', 0, 100, 0, 100, 1, 'P', 'N', 0, 0, 5,
                                   'P', 'H', 0, 101, 0, 200, 2, 'P', 'N', 0, 1, 0,
                                   'P', 'N', 1, 0, 0, 0, 4, 0, 0, 0, 8};
/* Day 100 as in `policies`; then node 0 with ranks 255, 255 on that day. */
static const uint8_t none_left[] = {'P', 'H', 0, 100, 0, 100, 1, 'P', 'N', 0, 0, 5,
                                    'P', 'H', 0, 100, 0, 100, 1, 'P', 'N', 0, 255, 255};

/* Choice 1 with value 1, choice 1 with value 4, choice 2. */
static const uint8_t one[] = {'I', 'H', 2, 'I', 'N', 0, 1, 'I', 'N', 1, 255, 0, 0, 0, 1};
static const uint8_t four[] = {'I', 'H', 2, 'I', 'N', 0, 1, 'I', 'N', 1, 255, 0, 0, 0, 4};
static const uint8_t two[] = {'I', 'H', 2, 'I', 'N', 0, 2, 'I', 'N', 2, 255};

/* The sheet of `four`. */
static const char lines[] = " 0   1                                                \n"
                            " 1 ---           4                                    \n";

enum { ROOM = 128, OLD = 0xa5 };
static uint8_t out[ROOM];

static int passed, failed;

static void expect(const char *name, int holds) {
    if (holds) {
        passed++;
    } else {
        failed++;
        printf("FAILED %s\n", name);
    }
}

/* Number, file, offset and value are as given. */
static void answers(const char *name, neulenta_answer got, uint32_t number, uint32_t file,
                    uint64_t offset, uint64_t value) {
    int holds = got.number == number && got.file == file && got.offset == offset &&
                got.value == value;
    if (!holds)
        printf("%s: %" PRIu32 " %" PRIu32 " %" PRIu64 " %" PRIu64 "\n", name, got.number, got.file,
               got.offset, got.value);
    expect(name, holds);
}

/* `out` begins with `bytes`, and the rest is old; then all of it is old again. */
static void written(const char *name, const uint8_t *bytes, size_t length) {
    int holds = memcmp(out, bytes, length) == 0;
    for (size_t i = length; i < ROOM; i++) holds = holds && out[i] == OLD;
    expect(name, holds);
    memset(out, OLD, ROOM);
}

static void untouched(const char *name) { written(name, out, 0); }

#define BYTES(bytes) bytes, sizeof bytes
#define TEXT(text) (const uint8_t *)text, sizeof text - 1
#define EMPTY schema, 0
#define NOTHING NULL, 0

static void reconciling(void) {
    answers("reconcile, day 100",
            neulenta_reconcile(BYTES(schema), BYTES(policies), 100, 100, out, ROOM), 0, 0, 0, 15);
    written("reconcile, day 100: buffer", BYTES(one));
    answers("reconcile, days 100 and 101",
            neulenta_reconcile(BYTES(schema), BYTES(policies), 100, 101, out, ROOM), 0, 0, 0, 15);
    written("reconcile, days 100 and 101: buffer", BYTES(four));
    answers("reconcile, day 101",
            neulenta_reconcile(BYTES(schema), BYTES(policies), 101, 101, out, ROOM), 0, 0, 0, 11);
    written("reconcile, day 101: buffer", BYTES(two));
    answers("reconcile, no policies",
            neulenta_reconcile(BYTES(schema), EMPTY, 0, 0, out, ROOM), 0, 0, 0, 15);
    written("reconcile, no policies: buffer", BYTES(one));

    answers("reconcile, 15 bytes",
            neulenta_reconcile(BYTES(schema), BYTES(policies), 100, 100, out, 15), 0, 0, 0, 15);
    written("reconcile, 15 bytes: buffer", BYTES(one));
    answers("reconcile, 14 bytes",
            neulenta_reconcile(BYTES(schema), BYTES(policies), 100, 100, out, 14), 14, 0, 0, 0);
    untouched("reconcile, 14 bytes: buffer");
    answers("reconcile, 0 bytes",
            neulenta_reconcile(BYTES(schema), BYTES(policies), 100, 100, out, 0), 14, 0, 0, 0);
    untouched("reconcile, 0 bytes: buffer");

    answers("reconcile, empty schema",
            neulenta_reconcile(EMPTY, BYTES(policies), 100, 100, out, ROOM), 2, 1, 0, 0);
    untouched("reconcile, empty schema: buffer");
    answers("reconcile, cut policies",
            neulenta_reconcile(BYTES(schema), policies, sizeof policies - 1, 100, 100, out, ROOM),
            2, 2, 31, 0);
    untouched("reconcile, cut policies: buffer");
    answers("reconcile, schema as policies",
            neulenta_reconcile(BYTES(schema), BYTES(schema), 100, 100, out, ROOM), 1, 2, 0, 0);
    untouched("reconcile, schema as policies: buffer");
    answers("reconcile, last day before first",
            neulenta_reconcile(BYTES(schema), BYTES(policies), 101, 100, out, ROOM), 12, 3, 0, 0);
    untouched("reconcile, last day before first: buffer");
    answers("reconcile, three days",
            neulenta_reconcile(BYTES(schema), BYTES(policies), 100, 102, out, ROOM), 12, 3, 0, 0);
    untouched("reconcile, three days: buffer");
    answers("reconcile, no instance",
            neulenta_reconcile(BYTES(schema), BYTES(none_left), 100, 100, out, 0), 13, 0, 0, 0);
    untouched("reconcile, no instance: buffer");
}

static void checking(void) {
    answers("check, reconciled",
            neulenta_check(BYTES(schema), BYTES(policies), 100, 101, BYTES(four)), 0, 0, 0, 0);
    answers("check, value forbidden",
            neulenta_check(BYTES(schema), BYTES(policies), 100, 101, BYTES(one)), 18, 4, 11, 0);
    answers("check, choice forbidden",
            neulenta_check(BYTES(schema), BYTES(none_left), 100, 100, BYTES(two)), 18, 4, 6, 0);
    answers("check, empty schema",
            neulenta_check(EMPTY, BYTES(policies), 100, 100, BYTES(one)), 2, 1, 0, 0);
    answers("check, cut instance",
            neulenta_check(BYTES(schema), BYTES(policies), 100, 100, one, sizeof one - 1), 2, 4,
            11, 0);
}

static void comparing(void) {
    answers("compare, a file with itself",
            neulenta_compare(BYTES(schema), BYTES(policies), 100, 100, BYTES(one), BYTES(one)), 0,
            0, 0, 0);
    answers("compare, values do not count",
            neulenta_compare(BYTES(schema), BYTES(policies), 100, 100, BYTES(one), BYTES(four)), 0,
            0, 0, 0);
    answers("compare, first better",
            neulenta_compare(BYTES(schema), BYTES(policies), 100, 100, BYTES(one), BYTES(two)), 0,
            0, 0, 1);
    answers("compare, second better",
            neulenta_compare(BYTES(schema), BYTES(policies), 101, 101, BYTES(one), BYTES(two)), 0,
            0, 0, 2);
    answers("compare, empty first",
            neulenta_compare(BYTES(schema), BYTES(policies), 100, 100, EMPTY, BYTES(two)), 2, 4, 0,
            0);
    answers("compare, empty second",
            neulenta_compare(BYTES(schema), BYTES(policies), 100, 100, BYTES(one), EMPTY), 2, 5, 0,
            0);
}

static void copying(void) {
    answers("copy", neulenta_copy(BYTES(schema), BYTES(two), out, ROOM), 0, 0, 0, 11);
    written("copy: buffer", BYTES(two));
    answers("copy, 11 bytes", neulenta_copy(BYTES(schema), BYTES(two), out, 11), 0, 0, 0, 11);
    written("copy, 11 bytes: buffer", BYTES(two));
    answers("copy, 10 bytes", neulenta_copy(BYTES(schema), BYTES(two), out, 10), 14, 0, 0, 0);
    untouched("copy, 10 bytes: buffer");
    answers("copy, empty schema", neulenta_copy(EMPTY, BYTES(two), out, ROOM), 2, 1, 0, 0);
    untouched("copy, empty schema: buffer");
    answers("copy, cut instance", neulenta_copy(BYTES(schema), two, sizeof two - 1, out, ROOM), 2,
            4, 10, 0);
    untouched("copy, cut instance: buffer");
}

static void laying_out(void) {
    answers("sheet", neulenta_sheet(BYTES(schema), BYTES(four), out, ROOM), 0, 0, 0, 110);
    written("sheet: buffer", TEXT(lines));
    answers("sheet, 110 bytes", neulenta_sheet(BYTES(schema), BYTES(four), out, 110), 0, 0, 0, 110);
    written("sheet, 110 bytes: buffer", TEXT(lines));
    answers("sheet, 109 bytes", neulenta_sheet(BYTES(schema), BYTES(four), out, 109), 14, 0, 0, 0);
    untouched("sheet, 109 bytes: buffer");
    answers("sheet, 0 bytes", neulenta_sheet(BYTES(schema), BYTES(four), out, 0), 14, 0, 0, 0);
    untouched("sheet, 0 bytes: buffer");
    answers("sheet, empty schema", neulenta_sheet(EMPTY, BYTES(four), out, ROOM), 2, 1, 0, 0);
    untouched("sheet, empty schema: buffer");
    answers("sheet, cut instance",
            neulenta_sheet(BYTES(schema), four, sizeof four - 1, out, ROOM), 2, 4, 11, 0);
    untouched("sheet, cut instance: buffer");
}

/* A null pointer with length 0 is an empty file, or an empty buffer. */
static void nothing(void) {
    answers("reconcile, null schema",
            neulenta_reconcile(NOTHING, BYTES(policies), 100, 100, out, ROOM), 2, 1, 0, 0);
    untouched("reconcile, null schema: buffer");
    answers("reconcile, null policies",
            neulenta_reconcile(BYTES(schema), NOTHING, 0, 0, out, ROOM), 0, 0, 0, 15);
    written("reconcile, null policies: buffer", BYTES(one));
    answers("reconcile, null buffer",
            neulenta_reconcile(BYTES(schema), BYTES(policies), 100, 100, NOTHING), 14, 0, 0, 0);
    answers("check, null schema",
            neulenta_check(NOTHING, BYTES(policies), 100, 100, BYTES(one)), 2, 1, 0, 0);
    answers("check, null policies",
            neulenta_check(BYTES(schema), NOTHING, 100, 100, BYTES(one)), 0, 0, 0, 0);
    answers("check, null instance",
            neulenta_check(BYTES(schema), BYTES(policies), 100, 100, NOTHING), 2, 4, 0, 0);
    answers("compare, null schema",
            neulenta_compare(NOTHING, BYTES(policies), 100, 100, BYTES(one), BYTES(two)), 2, 1, 0,
            0);
    answers("compare, null policies",
            neulenta_compare(BYTES(schema), NOTHING, 100, 100, BYTES(one), BYTES(two)), 0, 0, 0,
            NEULENTA_FIRST_BETTER);
    answers("compare, null first",
            neulenta_compare(BYTES(schema), BYTES(policies), 100, 100, NOTHING, BYTES(two)), 2, 4,
            0, 0);
    answers("compare, null second",
            neulenta_compare(BYTES(schema), BYTES(policies), 100, 100, BYTES(one), NOTHING), 2, 5,
            0, 0);
    answers("copy, null schema", neulenta_copy(NOTHING, BYTES(two), out, ROOM), 2, 1, 0, 0);
    untouched("copy, null schema: buffer");
    answers("copy, null instance", neulenta_copy(BYTES(schema), NOTHING, out, ROOM), 2, 4, 0, 0);
    untouched("copy, null instance: buffer");
    answers("copy, null buffer", neulenta_copy(BYTES(schema), BYTES(two), NOTHING), 14, 0, 0, 0);
    answers("sheet, null schema", neulenta_sheet(NOTHING, BYTES(two), out, ROOM), 2, 1, 0, 0);
    untouched("sheet, null schema: buffer");
    answers("sheet, null instance", neulenta_sheet(BYTES(schema), NOTHING, out, ROOM), 2, 4, 0, 0);
    untouched("sheet, null instance: buffer");
    answers("sheet, null buffer", neulenta_sheet(BYTES(schema), BYTES(two), NOTHING), 14, 0, 0, 0);
}

static void version(void) {
    expect("version of the header", neulenta_version() == NEULENTA_VERSION);
    expect("compatible", neulenta_compatible());
}

/* Each number has a text of its own. */
static void texts(void) {
    for (uint32_t number = NEULENTA_SUCCESS; number <= NEULENTA_FORBIDDEN + 1; number++)
        for (uint32_t other = 0; other < number; other++)
            if (strcmp(neulenta_text(number), neulenta_text(other)) == 0) {
                printf("FAILED text: %" PRIu32 " as %" PRIu32 "\n", number, other);
                failed++;
            }
    expect("no text above the last number",
           strcmp(neulenta_text(NEULENTA_FORBIDDEN + 1), neulenta_text(UINT32_MAX)) == 0);
}

int main(void) {
    memset(out, OLD, ROOM);
    reconciling();
    checking();
    comparing();
    copying();
    laying_out();
    nothing();
    version();
    texts();
    printf("%d passed, %d failed\n", passed, failed);
    return failed != 0;
}
