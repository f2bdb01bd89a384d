/* Prints the sheet of an instance, which it reads from standard input, by its schema, or why the
 * call refuses.
 *
 *   cc -I include examples/link/sheet.c target/staticlib/libexports.a -o sheet
 *   ./sheet SCHEMA < INSTANCE
 *
 * Status: 0; 1 refused; 2 wrong usage, a file cannot be read, or the sheet not be written.
 */
#include <inttypes.h>
#include <stdio.h>

#include "neulenta.h"

#if NEULENTA_VERSION_MAJOR != 1
#error "written for version 1 of the calls"
#endif

/* More than any schema or instance has: what is left unread changes no answer. */
enum { ROOM = 1 << 16 };

/* The start of a file, or all of it. */
typedef struct file {
    uint8_t bytes[ROOM];
    size_t length;
} file;

static int take(file *f, FILE *from) {
    if (!from) return 0;
    f->length = fread(f->bytes, 1, ROOM, from);
    return !ferror(from);
}

static int fail(const char *what) {
    fprintf(stderr, "sheet: %s\n", what);
    return 2;
}

int main(int count, char **words) {
    static file schema, instance;
    static uint8_t out[NEULENTA_LONGEST_SHEET];
    neulenta_answer answer;
    if (count != 2) return fail("usage: sheet SCHEMA < INSTANCE");
    if (!neulenta_compatible()) return fail("the library is not of this header's version");
    if (!take(&schema, fopen(words[1], "rb"))) return fail("the schema cannot be read");
    if (!take(&instance, stdin)) return fail("the instance cannot be read");
    answer = neulenta_sheet(schema.bytes, schema.length, instance.bytes, instance.length, out,
                            sizeof out);
    if (answer.number != NEULENTA_SUCCESS) {
        fprintf(stderr, "number %" PRIu32 ", file %" PRIu32 ", offset %" PRIu64 ": %s\n",
                answer.number, answer.file, answer.offset, neulenta_text(answer.number));
        return 1;
    }
    if (fwrite(out, 1, answer.value, stdout) != answer.value || fflush(stdout))
        return fail("the sheet cannot be written");
    return 0;
}
