/* Exceptions, each with its handler: system calls, a trap, a sum that overflows, loads from an odd and a missing address, an illegal word. */
#include "board.h"

OUT struct {
    /* By the vector's number: how often it was taken, and EEAR then. */
    u32 taken[16];
    u32 failing[16];
    u32 answers[8];
} out;

#define SR 17
#define OVE (1u << 12)

/* Handlers use r26, r28 and r30, which the compiler is told to leave alone. */
#define NOTE(number) \
    "    l.movhi r30, hi(out)\n" \
    "    l.ori   r30, r30, lo(out)\n" \
    "    l.lwz   r28, 4 * " number "(r30)\n" \
    "    l.addi  r28, r28, 1\n" \
    "    l.sw    4 * " number "(r30), r28\n" \
    "    l.mfspr r26, r0, 48\n" \
    "    l.sw    64 + 4 * " number "(r30), r26\n"

/* Goes on after the instruction that raised. */
#define SKIP \
    "    l.mfspr r28, r0, 32\n" \
    "    l.addi  r28, r28, 4\n" \
    "    l.mtspr r0, r28, 32\n" \
    "    l.rfe\n"

__asm__(
    ".text\n"
    ".global on_bus_error, on_alignment, on_illegal, on_range, on_syscall, on_trap\n"
    "on_bus_error:\n" NOTE("2") SKIP
    "on_alignment:\n" NOTE("6") SKIP
    "on_illegal:\n" NOTE("7") SKIP
    "on_range:\n" NOTE("11") SKIP
    "on_syscall:\n" NOTE("12")
    "    l.add   r11, r3, r4\n"
    "    l.rfe\n"
    "on_trap:\n" NOTE("14") SKIP);

static u32 call(u32 x, u32 y)
{
    register u32 first __asm__("r3") = x;
    register u32 second __asm__("r4") = y;
    register u32 answer __asm__("r11");
    __asm__ volatile("l.sys 5" : "=r"(answer) : "r"(first), "r"(second) : "memory");
    return answer;
}

static u32 read_special(u32 number)
{
    u32 value;
    __asm__ volatile("l.mfspr %0, %1, 0" : "=r"(value) : "r"(number));
    return value;
}

static void write_special(u32 number, u32 value)
{
    __asm__ volatile("l.mtspr %0, %1, 0" : : "r"(number), "r"(value));
}

/* rD is written although the sum raises. */
static u32 sum(u32 x, u32 y)
{
    u32 total;
    __asm__ volatile("l.add %0, %1, %2" : "=r"(total) : "r"(x), "r"(y) : "memory");
    return total;
}

/* A load that raises leaves its register. */
static u32 load(u32 address)
{
    u32 value = 0x55;
    __asm__ volatile("l.lwz %0, 0(%1)" : "+r"(value) : "r"(address) : "memory");
    return value;
}

int main(void)
{
    /* The illegal word lies among the data and not in the code; l.jr r9 and its slot follow. */
    static const u32 words[] = { 0xfc000000, 0x44004800, 0x15000000 };
    for (u32 i = 0; i < 20; i++)
        out.answers[0] += call(i, 100);
    __asm__ volatile("l.trap 1" : : : "memory");
    out.answers[1] = sum(0x7fffffff, 1);
    write_special(SR, read_special(SR) | OVE);
    out.answers[2] = sum(0x7fffffff, 2);
    out.answers[3] = sum(0xffffffff, 2);
    write_special(SR, read_special(SR) & ~OVE);
    out.answers[4] = load((u32)&out + 2);
    out.answers[5] = load(0xfffffff0);
    ((void (*)(void))words)();
    out.answers[6] = out.failing[7] - (u32)words;
    return out.taken[12];
}
