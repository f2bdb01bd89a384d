/* Neulenta: the calls of the library.
 *
 * Each call takes raw bytes: nobody needs to have inspected a file first. Every call ends, on
 * every input. It keeps nothing between calls, allocates nothing and does no input or output, so
 * threads may call at the same time.
 *
 * docs/MODEL.md says what the files mean and which instance is the best, docs/NUMBERS.md has the
 * numbers again, with the fields of the files and the columns of a sheet; both are installed in
 * share/doc/neulenta.
 *
 * What a caller must ensure
 *   - A pointer and the length after it are those of one buffer: all its bytes can be read, and
 *     those of `out` can be written. With length 0 any pointer will do, null too: the file, or
 *     the buffer, is empty.
 *   - `out` overlaps no other buffer of the call. Else the call reads what it has just written
 *     and nothing is promised: a wrong instance with number 0 was seen, of a wrong length too, so
 *     that bytes beyond `out` may be written. Buffers that are only read may overlap or be the
 *     same.
 *   - Until the call returns, no one else writes a buffer of the call, and no one else reads
 *     `out`.
 *   - Days are 0 to 65,535. A number beyond loses its high bits on the way in and is another
 *     day; the call cannot see it.
 *   - The stack has room for the call: NEULENTA_STACK bytes that are left are enough for any. A
 *     thread takes part of its stack for itself: make it with PTHREAD_STACK_MIN + NEULENTA_STACK
 *     or more. A call that runs over the stack's end touches each page in turn, so that a guard
 *     page stops it.
 *   - Header and library belong together: neulenta_compatible(), once at the start, is not 0. So
 *     do source and header: a source says '#if NEULENTA_VERSION_MAJOR != 1' and '#error'.
 * Nothing is asked of the contents.
 *
 * For C from C99 on, and C++. The library is for x86-64 Linux and needs nothing but the C library:
 *   cc program.c $(pkg-config --cflags --libs neulenta)            where it is installed
 *   cc -I include program.c target/staticlib/libexports.a          in the repository
 */
#ifndef NEULENTA_H
#define NEULENTA_H

#include <stddef.h>
#include <stdint.h>

#ifdef __cplusplus
extern "C" {
#endif

/* The version of the calls that this header declares. The major number rises when an argument or
 * an answer of a call changes its meaning, a new number, file or verdict of a call included; the
 * minor one when a call is added, or files may say more; the last one otherwise. */
#define NEULENTA_VERSION_MAJOR 1
#define NEULENTA_VERSION_MINOR 0
#define NEULENTA_VERSION_PATCH 0
#define NEULENTA_VERSION \
    (NEULENTA_VERSION_MAJOR * 65536 + NEULENTA_VERSION_MINOR * 256 + NEULENTA_VERSION_PATCH)

/* The bytes of the longest instance, and of the longest sheet: a buffer of so many is never too
 * short for one. */
#define NEULENTA_LONGEST 1283
#define NEULENTA_LONGEST_SHEET 3520

/* Bytes of stack that a call needs, from the caller's frame on: measured, also of a first call, in
 * which the loader may have to find memset, and rounded up. */
#define NEULENTA_RECONCILE_STACK 19456
#define NEULENTA_CHECK_STACK 18432
#define NEULENTA_COMPARE_STACK 18432
#define NEULENTA_COPY_STACK 8192
#define NEULENTA_SHEET_STACK 8192
#define NEULENTA_STACK 20480 /* enough for any of them */

/* An answer that nobody looks at is a refusal that nobody sees: the compiler warns. */
#ifdef __GNUC__
#define NEULENTA_MUST_USE __attribute__((warn_unused_result))
#else
#define NEULENTA_MUST_USE
#endif

/* What every call but neulenta_version answers, returned by value.
 *
 * On success number, file and offset are 0. After a refusal value is 0 and `out` is as it was.
 */
typedef struct neulenta_answer {
    uint32_t number; /* 0, or why the call refuses: enum neulenta_number */
    uint32_t file;   /* where the number arose: enum neulenta_file */
    uint64_t offset; /* first byte of the failing field, counted from 0 at the start of the file */
    uint64_t value;  /* reconcile, copy, sheet: length written; compare: enum neulenta_verdict;
                        check: 0 */
} neulenta_answer;

/* Files, in the order in which a call reads them. */
enum neulenta_file {
    NEULENTA_NO_FILE = 0,
    NEULENTA_SCHEMA = 1,
    NEULENTA_POLICIES = 2,
    NEULENTA_PASS = 3,
    NEULENTA_INSTANCE = 4, /* or the first of two */
    NEULENTA_SECOND_INSTANCE = 5
};

/* Verdicts of neulenta_compare. */
enum neulenta_verdict {
    NEULENTA_ALIKE = 0,
    NEULENTA_FIRST_BETTER = 1,
    NEULENTA_SECOND_BETTER = 2,
    NEULENTA_NEITHER = 3
};

/* Numbers
 *
 * A file's fields are taken in turn and the first breach wins. A field that the file's end cuts
 * gives 2; a complete field is then held to its own rule. Files are read in the order of their
 * numbers; 13, 14 and 18 come last.
 */
enum neulenta_number {
    NEULENTA_SUCCESS = 0,
    NEULENTA_WRONG_MARK = 1,       /* at the mark; files 1 2 4 5 */
    NEULENTA_INCOMPLETE_FIELD = 2, /* at the field; files 1 2 4 5 */
    NEULENTA_WRONG_COUNT = 3,      /* at SH count; file 1 */
    NEULENTA_WRONG_KIND = 4,       /* at SN kind, SN c; file 1 */
    NEULENTA_WRONG_SUCCESSOR = 5,  /* at SN successor; file 1 */
    NEULENTA_WRONG_VARIABLE = 6,   /* at SN v, type, hi, size; file 1 */
    NEULENTA_SURPLUS_BYTE = 7,     /* at that byte; files 1 4 5 */
    NEULENTA_SURPLUS_POLICY = 8,   /* at that byte; file 2 */
    NEULENTA_WRONG_PERIOD = 9,     /* at PH last; file 2 */
    NEULENTA_WRONG_NODE = 10,      /* at PN node; file 2 */
    NEULENTA_WRONG_MASK = 11,      /* at PN mask; file 2 */
    NEULENTA_WRONG_PASS = 12,      /* at 0; file 3 */
    NEULENTA_NO_INSTANCE = 13,     /* at 0; no file */
    NEULENTA_SHORT_BUFFER = 14,    /* at 0; no file */
    NEULENTA_WRONG_ENTRY = 15,     /* at IN node, IH m; files 4 5 */
    NEULENTA_WRONG_CHOICE = 16,    /* at IN choice; files 4 5 */
    NEULENTA_WRONG_VALUE = 17,     /* at IN value; files 4 5 */
    NEULENTA_FORBIDDEN = 18        /* at the first such field; file 4 */
};

/* What a number means, in a line; for one that there is not, "no such number". */
static inline const char *neulenta_text(uint32_t number) {
    switch (number) {
    case NEULENTA_SUCCESS: return "success";
    case NEULENTA_WRONG_MARK: return "a record does not begin with its two letters";
    case NEULENTA_INCOMPLETE_FIELD: return "the bytes end before a field is complete";
    case NEULENTA_WRONG_COUNT: return "node count 0 or above 64";
    case NEULENTA_WRONG_KIND: return "kind above 1, or successor count above 8, or 0 under kind 0";
    case NEULENTA_WRONG_SUCCESSOR:
        return "successor not ascending, not above its node's number or not below the node count";
    case NEULENTA_WRONG_VARIABLE:
        return "more than 4 variables, type above 1, hi below lo, or size 0 or above 32";
    case NEULENTA_SURPLUS_BYTE: return "a byte remains after the last record";
    case NEULENTA_SURPLUS_POLICY: return "a byte remains after sixteen policies";
    case NEULENTA_WRONG_PERIOD: return "last day below first day";
    case NEULENTA_WRONG_NODE: return "node not ascending in its policy or not below the node count";
    case NEULENTA_WRONG_MASK: return "mask has a bit at or above the variable's size";
    case NEULENTA_WRONG_PASS:
        return "last day of the pass below its first day, or above the day after it";
    case NEULENTA_NO_INSTANCE: return "no instance meets the policies in force";
    case NEULENTA_SHORT_BUFFER: return "the buffer is shorter than the instance";
    case NEULENTA_WRONG_ENTRY:
        return "entry not for the lowest reached node without one, or a reached node "
               "without an entry";
    case NEULENTA_WRONG_CHOICE:
        return "choice is no successor of a kind 1 node that has any, or not 255 elsewhere";
    case NEULENTA_WRONG_VALUE: return "value outside the schema's domain";
    case NEULENTA_FORBIDDEN: return "a policy in force forbids a choice or a value";
    default: return "no such number";
    }
}

/* The version of the library that is linked: NEULENTA_VERSION of the header that belongs to it. */
uint32_t neulenta_version(void);

/* Whether the linked library does what this header says: no older, and of the same major number.
 * The linker does not compare them. */
NEULENTA_MUST_USE
static inline int neulenta_compatible(void) {
    return neulenta_version() / 65536 == NEULENTA_VERSION_MAJOR &&
           neulenta_version() >= NEULENTA_VERSION;
}

/* Reconciles: writes at the start of `out` the best instance that meets every policy in force
 * from day a to day b, each variable at its least admitted value. b is a or a + 1.
 *
 * value: the length written. The bytes of `out` beyond it stay. NEULENTA_LONGEST bytes hold any.
 * Numbers: 1 to 7 (file 1); 1, 2, 8 to 11 (file 2); 12; 13; 14.
 */
NEULENTA_MUST_USE
neulenta_answer neulenta_reconcile(const uint8_t *schema, size_t schema_length,
                                   const uint8_t *policies, size_t policies_length,
                                   uint16_t a, uint16_t b,
                                   uint8_t *out, size_t out_length);

/* Checks: accepts with number 0 exactly the file of an instance of the schema that meets every
 * policy in force from day a to day b.
 *
 * value: 0.
 * Numbers: 1 to 7 (file 1); 1, 2, 8 to 11 (file 2); 12; 1, 2, 7, 15 to 17 (file 4); 18.
 */
NEULENTA_MUST_USE
neulenta_answer neulenta_check(const uint8_t *schema, size_t schema_length,
                               const uint8_t *policies, size_t policies_length,
                               uint16_t a, uint16_t b,
                               const uint8_t *instance, size_t instance_length);

/* Compares two instances of the schema under the policies in force from day a to day b. They
 * need not meet the policies; a successor that is not allowed ranks as worst. Values do not
 * count.
 *
 * value, with number 0: the verdict, of enum neulenta_verdict.
 * Numbers: 1 to 7 (file 1); 1, 2, 8 to 11 (file 2); 12; 1, 2, 7, 15 to 17 (file 4, then 5).
 */
NEULENTA_MUST_USE
neulenta_answer neulenta_compare(const uint8_t *schema, size_t schema_length,
                                 const uint8_t *policies, size_t policies_length,
                                 uint16_t a, uint16_t b,
                                 const uint8_t *first, size_t first_length,
                                 const uint8_t *second, size_t second_length);

/* Copies: reads an instance of the schema and writes it at the start of `out`.
 *
 * value: the length written. The bytes of `out` beyond it stay.
 * Numbers: 1 to 7 (file 1); 1, 2, 7, 15 to 17 (file 4); 14.
 */
NEULENTA_MUST_USE
neulenta_answer neulenta_copy(const uint8_t *schema, size_t schema_length,
                              const uint8_t *instance, size_t instance_length,
                              uint8_t *out, size_t out_length);

/* Lays out: reads an instance of the schema and writes its sheet at the start of `out`, a line for
 * each entry, 54 bytes and a line feed. Node in 2 columns, a space, choice in 3, then four times a
 * space and a value in 11; all decimal and right-aligned. A choice of 255 is `---`, a value that
 * the node does not have is blank. No byte 0 follows the last line.
 *
 * value: the length written, 55 for each entry. The bytes of `out` beyond it stay.
 *   NEULENTA_LONGEST_SHEET bytes hold any.
 * Numbers: 1 to 7 (file 1); 1, 2, 7, 15 to 17 (file 4); 14.
 */
NEULENTA_MUST_USE
neulenta_answer neulenta_sheet(const uint8_t *schema, size_t schema_length,
                               const uint8_t *instance, size_t instance_length,
                               uint8_t *out, size_t out_length);

#ifdef __cplusplus
}
#endif

#endif
