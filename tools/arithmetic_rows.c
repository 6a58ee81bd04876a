/* Prints results and flags that this processor gives for corner values: the source of the tables in
   crates/x64_alu/src/tests.rt. Build and run: cc -O1 -o rows arithmetic_rows.c && ./rows

   A: operation, two operands, result, flags        N: operand, its negation, flags
   M: two factors, low word of the product          S: operand, count, shl, shr, sar
   D: high and low word, divisor, quotient and remainder, or - where the processor faults
   H: condition number, and the 16 values of the flags for which it holds as bits 0 to 15

   Flags are ZF, SF, CF and OF as the bits 3 to 0. The tables leave the flags of M, S and D out: they are 0 by the
   product's own rule. */
#include <setjmp.h>
#include <signal.h>
#include <stdint.h>
#include <stdio.h>

typedef uint64_t u64;

#define LAST 0xffffffffffffffffull
#define SIGN 0x8000000000000000ull

static const u64 corners[] = {0, 1, 0x80000000, 0xffffffff, SIGN - 1, SIGN, LAST};
#define CORNERS 7

static int four_flags(u64 f) {
    return ((f >> 6) & 1) * 8 + ((f >> 7) & 1) * 4 + (f & 1) * 2 + ((f >> 11) & 1);
}

#define OPERATION(name, instruction)                                                                          \
    static u64 name(u64 a, u64 b, int *flags) {                                                               \
        u64 f;                                                                                                \
        __asm__ volatile(instruction " %2, %0; pushfq; popq %1" : "+r"(a), "=r"(f) : "r"(b) : "cc");          \
        *flags = four_flags(f);                                                                               \
        return a;                                                                                             \
    }
OPERATION(op_add, "addq")
OPERATION(op_or, "orq")
OPERATION(op_and, "andq")
OPERATION(op_sub, "subq")
OPERATION(op_xor, "xorq")
OPERATION(op_cmp, "cmpq")

static u64 negated(u64 a, int *flags) {
    u64 f;
    __asm__ volatile("negq %0; pushfq; popq %1" : "+r"(a), "=r"(f) : : "cc");
    *flags = four_flags(f);
    return a;
}

static u64 product(u64 a, u64 b) {
    __asm__("imulq %1, %0" : "+r"(a) : "r"(b) : "cc");
    return a;
}

#define SHIFT(name, instruction)                                                                              \
    static u64 name(u64 a, int count) {                                                                       \
        __asm__(instruction " %%cl, %0" : "+r"(a) : "c"(count) : "cc");                                       \
        return a;                                                                                             \
    }
SHIFT(shl, "shlq")
SHIFT(shr, "shrq")
SHIFT(sar, "sarq")

static sigjmp_buf faulted;

static void on_fault(int signal) {
    (void)signal;
    siglongjmp(faulted, 1);
}

static int divides(u64 high, u64 low, u64 by, u64 *quotient, u64 *remainder) {
    if (sigsetjmp(faulted, 1)) {
        return 0;
    }
    __asm__ volatile("idivq %4" : "=a"(*quotient), "=d"(*remainder) : "a"(low), "d"(high), "r"(by) : "cc");
    return 1;
}

static int holds(int condition, int flags) {
    u64 f = (u64)((flags >> 3) & 1) << 6 | (u64)((flags >> 2) & 1) << 7 | ((flags >> 1) & 1) | (u64)(flags & 1) << 11 | 2;
    unsigned char r = 0;
#define SET(number, instruction)                                                                              \
    case number:                                                                                              \
        __asm__ volatile("pushq %1; popfq; " instruction " %0" : "=r"(r) : "r"(f) : "cc");                    \
        break;
    switch (condition) {
        SET(0, "seto") SET(1, "setno") SET(2, "setb") SET(3, "setae") SET(4, "sete") SET(5, "setne")
        SET(6, "setbe") SET(7, "seta") SET(8, "sets") SET(9, "setns") SET(12, "setl") SET(13, "setge")
        SET(14, "setle") SET(15, "setg")
    }
    return r;
}

static const u64 divisions[][3] = {
    {0, 7, 0}, {0, 7, 2}, {LAST, -7, 2}, {0, 7, -2}, {LAST, -7, -2}, {0, SIGN - 1, 1}, {0, SIGN, 1}, {LAST, SIGN, LAST},
    {LAST, SIGN, 1}, {0, SIGN, LAST}, {0, SIGN + 1, LAST}, {SIGN, 0, LAST}, {SIGN, 0, SIGN},
    {0x3fffffffffffffff, LAST, SIGN - 1}, {0x3fffffffffffffff, LAST, SIGN}, {1, 0, 4}, {1, 0, 3}, {1, 0, 2}, {-2, 0, 4},
    {-2, 0, 2}, {-2, 0, 3}, {-2, 5, 7}, {0, LAST, LAST}, {0x12345678, 0x9abcdef0, 0x1fffffffffffff}, {0, 0, 5}, {5, 0, 0},
    {SIGN - 1, LAST, LAST},
};

#define HEX(v) (unsigned long)(v)

int main(void) {
    static const char *names[] = {"Add", "Or", "And", "Sub", "Xor", "Cmp"};
    static u64 (*const operations[])(u64, u64, int *) = {op_add, op_or, op_and, op_sub, op_xor, op_cmp};
    static const int counts[] = {0, 1, 31, 32, 63, 64, 65, 255};
    signal(SIGFPE, on_fault);
    for (int o = 0; o < 6; o++) {
        for (int i = 0; i < CORNERS; i++) {
            for (int j = 0; j < CORNERS; j++) {
                int flags;
                u64 value = operations[o](corners[i], corners[j], &flags);
                printf("A %s %#lx %#lx %#lx %d\n", names[o], HEX(corners[i]), HEX(corners[j]), HEX(value), flags);
            }
        }
    }
    for (int i = 0; i < CORNERS; i++) {
        int flags;
        u64 value = negated(corners[i], &flags);
        printf("N %#lx %#lx %d\n", HEX(corners[i]), HEX(value), flags);
    }
    for (int i = 0; i < CORNERS; i++) {
        for (int j = i; j < CORNERS; j++) {
            printf("M %#lx %#lx %#lx\n", HEX(corners[i]), HEX(corners[j]), HEX(product(corners[i], corners[j])));
        }
    }
    for (int i = 0; i < CORNERS; i++) {
        for (int c = 0; c < 8; c++) {
            u64 a = corners[i];
            printf("S %#lx %d %#lx %#lx %#lx\n", HEX(a), counts[c], HEX(shl(a, counts[c])), HEX(shr(a, counts[c])), HEX(sar(a, counts[c])));
        }
    }
    for (unsigned i = 0; i < sizeof divisions / sizeof *divisions; i++) {
        const u64 *d = divisions[i];
        u64 quotient, remainder;
        if (divides(d[0], d[1], d[2], &quotient, &remainder)) {
            printf("D %#lx %#lx %#lx %#lx %#lx\n", HEX(d[0]), HEX(d[1]), HEX(d[2]), HEX(quotient), HEX(remainder));
        } else {
            printf("D %#lx %#lx %#lx -\n", HEX(d[0]), HEX(d[1]), HEX(d[2]));
        }
    }
    for (int condition = 0; condition < 16; condition++) {
        unsigned mask = 0;
        for (int flags = 0; flags < 16; flags++) {
            mask |= (unsigned)holds(condition, flags) << flags;
        }
        if (condition != 10 && condition != 11) {
            printf("H %d %#06x\n", condition, mask);
        }
    }
    return 0;
}
