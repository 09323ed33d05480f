/* Prints the tables of src/tests: what gcc makes of C's types and operators where signed arithmetic wraps.
 *
 *   gcc -fwrapv -w -o /tmp/operators data/operators.c
 *   for table in binary unary conversions commons; do /tmp/operators $table > src/tests/$table.rt; done; rt fmt
 *
 * Operands are numbers of the types before any conversion. A shift's count is taken modulo the width of the promoted left
 * operand, and divisors of 0 are left out. A quotient by -1 is taken as a difference, since the machine's instruction traps
 * where the dividend is the least number. */
#include <stdint.h>
#include <stdio.h>
#include <string.h>

typedef int8_t I8;
typedef int16_t I16;
typedef int32_t I32;
typedef int64_t I64;
typedef uint8_t U8;
typedef uint16_t U16;
typedef uint32_t U32;
typedef uint64_t U64;
typedef __int128 Wide;

#define TYPES(X) X(I8) X(I16) X(I32) X(I64) X(U8) X(U16) X(U32) X(U64)

#define NAME(e) \
    _Generic((e), I8: "I8", I16: "I16", I32: "I32", I64: "I64", U8: "U8", U16: "U16", U32: "U32", U64: "U64")

static void number(Wide n) {
    if (n < 0)
        printf("-");
    printf("%llu", (unsigned long long)(n < 0 ? -n : n));
}

static unsigned at;
static int at_the_ends;

/* Prints a row, unless it is too long for one line. */
static int row(const char *op, const char *left, Wide x, const char *right, Wide y, Wide n) {
    char text[3][24];
    Wide numbers[3] = {x, y, n};
    for (int k = 0; k < 3; k++)
        snprintf(text[k], sizeof text[k], "%s%llu", numbers[k] < 0 ? "-" : "", (unsigned long long)(numbers[k] < 0 ? -numbers[k] : numbers[k]));
    char line[128];
    int length = snprintf(line, sizeof line, "%s, %s, %s, %s, %s, %s", op, left, text[0], right, text[1], text[2]);
    if (length > 60 && !at_the_ends)
        return 0;
    printf("    (%s),\n", line);
    return 1;
}

/* Numbers at the ends of a type's range and some inside. */
static Wide pick(unsigned k, int is_signed, int width) {
    Wide least = is_signed ? -((Wide)1 << (width - 1)) : 0;
    Wide greatest = ((Wide)1 << (is_signed ? width - 1 : width)) - 1;
    switch (k % 10) {
    case 0: return greatest;
    case 1: return is_signed ? -1 : greatest / 2 + 1;
    case 2: return least;
    case 3: return 7;
    case 4: return is_signed ? -7 : greatest - 6;
    case 5: return greatest / 3;
    case 6: return least + 2;
    case 7: return greatest / 2 + 5;
    case 8: return 100;
    default: return 1;
    }
}
#define PICK(A, k) (A) pick(k, (A)-1 < 0, 8 * sizeof(A))

static const char *operators[] = {"Add", "Sub", "Mul", "Div", "Rem", "And", "Or", "Xor", "Shl", "Shr", "Eq", "Ne", "Lt", "Le"};

#define ROW(e) written = row(operators[op], NAME(a), a, NAME(b), b, e)
#define COUNT(a, b) (int)(((Wide)(b) % (8 * (int)sizeof(+(a))) + 8 * (int)sizeof(+(a))) % (8 * (int)sizeof(+(a))))

#define PAIR(A, B)                                                \
    static void A##_##B(int op) {                                 \
        for (int written = 0; !written;) {                        \
            A a = PICK(A, at_the_ends ? 2 : at * 7 + at / 10);    \
            B b = PICK(B, at_the_ends ? 1 : at * 3 + at / 7);     \
            if ((op == 3 || op == 4) && b == 0)                   \
                b = 5;                                            \
            __typeof__(a / b) p = a, q = b;                       \
            at++;                                                 \
            switch (op) {                                         \
            case 0: ROW(a + b); break;                            \
            case 1: ROW(a - b); break;                            \
            case 2: ROW(a * b); break;                            \
            case 3: ROW(q == -1 && q < 0 ? 0 - p : p / q); break; \
            case 4: ROW(q == -1 && q < 0 ? p - p : p % q); break; \
            case 5: ROW(a & b); break;                            \
            case 6: ROW(a | b); break;                            \
            case 7: ROW(a ^ b); break;                            \
            case 8: ROW(a << COUNT(a, b)); break;                 \
            case 9: ROW(a >> COUNT(a, b)); break;                 \
            case 10: ROW(a == b); break;                          \
            case 11: ROW(a != b); break;                          \
            case 12: ROW(a < b); break;                           \
            case 13: ROW(a <= b); break;                          \
            }                                                     \
        }                                                         \
    }                                                             \
    static void common_##A##_##B(void) {                          \
        A a = 1;                                                  \
        B b = 1;                                                  \
        printf("    (" #A ", " #B ", %s),\n", NAME(a + b));         \
    }                                                             \
    static void convert_##A##_##B(void) {                         \
        A a = PICK(A, at * 7 + at / 10);                          \
        B b = a;                                                  \
        at++;                                                     \
        printf("    (" #A ", ");                                  \
        number(a);                                                \
        printf(", " #B ", ");                                     \
        number(b);                                                \
        printf("),\n");                                           \
    }
#define WITH_EACH(A) PAIR(A, I8) PAIR(A, I16) PAIR(A, I32) PAIR(A, I64) PAIR(A, U8) PAIR(A, U16) PAIR(A, U32) PAIR(A, U64)
TYPES(WITH_EACH)

#define UNARY(A)                                                  \
    static void unary_##A(void) {                                 \
        for (int k = 0; k < 4; k++) {                             \
            A a = PICK(A, k);                                     \
            printf("    (Neg, " #A ", ");                         \
            number(a);                                            \
            printf(", ");                                         \
            number(-a);                                           \
            printf("),\n    (Not, " #A ", ");                     \
            number(a);                                            \
            printf(", ");                                         \
            number(~a);                                           \
            printf("),\n");                                       \
        }                                                         \
    }
TYPES(UNARY)

#define ENTRIES(P, A) P##A##_I8, P##A##_I16, P##A##_I32, P##A##_I64, P##A##_U8, P##A##_U16, P##A##_U32, P##A##_U64,
#define OPERATE(A) ENTRIES(, A)
#define COMMON(A) ENTRIES(common_, A)
#define CONVERT(A) ENTRIES(convert_, A)
static void (*const operates[])(int) = {TYPES(OPERATE)};
static void (*const commons[])(void) = {TYPES(COMMON)};
static void (*const converts[])(void) = {TYPES(CONVERT)};

#define OP1 "use crate::types::Op1::{self, Neg, Not};\n"
#define OP2 "use crate::types::Op2::{self, Add, And, Div, Eq, Le, Lt, Mul, Ne, Or, Rem, Shl, Shr, Sub, Xor};\n"
#define TY "use crate::types::Ty::{self, I8, I16, I32, I64, U8, U16, U32, U64};\n"

static void head(const char *text, const char *uses, const char *name, const char *type, int rows) {
    printf("// %s, by gcc: see data/operators.c.\n\n%s\n", text, uses);
    printf("pub(super) static %s: [(%s); %d] = [\n", name, type, rows);
}

int main(int count, char **words) {
    const char *table = count > 1 ? words[1] : "";
    if (!strcmp(table, "binary")) {
        head("Binary operators: the types and numbers of both operands, and the number of the result", OP2 TY, "BINARY", "Op2, Ty, i128, Ty, i128, i128", 14 * 36);
        for (int op = 0; op < 14; op++)
            for (int pair = op % 2; pair < 64; pair += 2)
                operates[pair ^ (pair / 8 % 2)](op);
        at_the_ends = 1;
        for (int op = 0; op < 14; op++)
            I32_I32(op), I64_I64(op), U32_U32(op), U64_U64(op);
    } else if (!strcmp(table, "unary")) {
        head("Unary operators: the type and number of the operand, and the number of the result", OP1 TY, "UNARY", "Op1, Ty, i128, i128", 64);
        unary_I8(), unary_I16(), unary_I32(), unary_I64(), unary_U8(), unary_U16(), unary_U32(), unary_U64();
    } else if (!strcmp(table, "conversions")) {
        head("Conversions: the type and number before, and those after", TY, "CONVERSIONS", "Ty, i128, Ty, i128", 128);
        for (int k = 0; k < 128; k++)
            converts[k % 64]();
    } else if (!strcmp(table, "commons")) {
        head("The common type of each two types", TY, "COMMONS", "Ty, Ty, Ty", 64);
        for (int pair = 0; pair < 64; pair++)
            commons[pair]();
    }
    printf("];\n");
}
