/* Prints the tables of src/tables: what gcc makes of C's operators at the ends of each type, where signed arithmetic wraps.
 *
 *   gcc -fwrapv -w -o /tmp/lanes data/lanes.c
 *   for table in signed unsigned conversions; do /tmp/lanes $table > src/tables/$table.rt; done; rt fmt
 *
 * An operator of a type narrower than int works on int and is converted back, as an assignment of C does. A shift's count is taken
 * modulo the type's width, a quotient or remainder by 0 is printed as 0, and one by -1 is taken as a difference or 0, since the
 * machine's instruction traps where the dividend is the least number. */
#include <stdint.h>
#include <stdio.h>
#include <string.h>

typedef int8_t I8;
typedef int16_t I16;
typedef int32_t I32;
typedef int64_t I64;
typedef uint8_t U8;
typedef uint16_t U16;
typedef uint32_t U32;
typedef uint64_t U64;
typedef __int128 Wide;

#define SIGNED(X) X(I8) X(I16) X(I32) X(I64)
#define UNSIGNED(X) X(U8) X(U16) X(U32) X(U64)

#define IS_SIGNED(T) ((T)-1 < 0)
#define LEAST(T) (IS_SIGNED(T) ? (T)((U64)1 << (8 * sizeof(T) - 1)) : (T)0)
#define GREATEST(T) ((T)(IS_SIGNED(T) ? ((U64)1 << (8 * sizeof(T) - 1)) - 1 : (U64)-1))

/* The least number, the one before 0 (the last but one where there is none), 0, 1, and the greatest. */
#define END(T, k) \
    ((T)((k) == 0 ? (Wide)LEAST(T) : (k) == 1 ? (IS_SIGNED(T) ? -1 : (Wide)GREATEST(T) - 1) : (k) == 4 ? (Wide)GREATEST(T) : (k) - 2))

static void number(Wide n) {
    if (n < 0)
        printf("-");
    printf("%llu", (unsigned long long)(n < 0 ? -n : n));
}

/* Five results in a text. */
#define ROW(result) \
    printf("            b\""); \
    for (int j = 0; j < 5; j++) { \
        printf(j ? " " : ""); \
        number(result); \
    } \
    printf("\",\n");

#define OPERATOR(T, result) \
    printf("        [\n"); \
    for (int i = 0; i < 5; i++) { \
        T x = END(T, i); \
        ROW(({ T y = END(T, j); int count = y & (8 * sizeof(T) - 1); (result); })) \
    } \
    printf("        ],\n");

#define BINARY(T) \
    printf("\n/// The type %s: by operator and left operand, the results for each right operand.\n", #T); \
    printf("pub(crate) static BINARY_%s: [[&[u8]; 5]; 14] = [\n", #T); \
    OPERATOR(T, (T)(x + y)) \
    OPERATOR(T, (T)(x - y)) \
    OPERATOR(T, (T)((U64)x * (U64)y)) \
    OPERATOR(T, y == 0 ? 0 : y == (T)-1 && IS_SIGNED(T) ? (T)(0 - x) : (T)(x / y)) \
    OPERATOR(T, y == 0 ? 0 : y == (T)-1 && IS_SIGNED(T) ? (T)0 : (T)(x % y)) \
    OPERATOR(T, (T)(x & y)) \
    OPERATOR(T, (T)(x | y)) \
    OPERATOR(T, (T)(x ^ y)) \
    OPERATOR(T, (T)((U64)x << count)) \
    OPERATOR(T, (T)(x >> count)) \
    OPERATOR(T, x == y) \
    OPERATOR(T, x != y) \
    OPERATOR(T, x < y) \
    OPERATOR(T, x <= y) \
    printf("];\n");

/* A type's ends, their negations, their complements, and their conversions to each type. */
#define LINE(T, result) \
    printf("        b\""); \
    for (int i = 0; i < 5; i++) { \
        T x = END(T, i); \
        printf(i ? " " : ""); \
        number(result); \
    } \
    printf("\",\n");

#define ONE(T) \
    printf("    [\n"); \
    LINE(T, x) LINE(T, (T)-x) LINE(T, (T)~x) \
    LINE(T, (I8)x) LINE(T, (I16)x) LINE(T, (I32)x) LINE(T, (I64)x) LINE(T, (U8)x) LINE(T, (U16)x) LINE(T, (U32)x) LINE(T, (U64)x) \
    printf("    ],\n");

int main(int argc, char **argv) {
    const char *table = argc > 1 ? argv[1] : "";
    printf("// Written by data/lanes.c.\n");
    if (!strcmp(table, "signed")) {
        SIGNED(BINARY)
    } else if (!strcmp(table, "unsigned")) {
        UNSIGNED(BINARY)
    } else {
        printf("\n/// For each type, signed ones first: its ends, their negations, complements, and conversions to each type.\n");
        printf("pub(crate) static ENDS: [[&[u8]; 11]; 8] = [\n");
        SIGNED(ONE) UNSIGNED(ONE)
        printf("];\n");
    }
    return 0;
}
