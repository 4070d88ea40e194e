/* Every case of one file on a Cortex-M or a RISC-V of 32 bits, against the sums of the x86-64 archive's answers, both in the image (CASES).
 * Says of each call how often it was made, how many answers differ, the deepest stack (painted below the caller), and ticks: of the costliest, of
 * all, and of the accepted ones with their number. A tick is of SysTick or minstret, where qemu counts instructions (-icount); the first line says
 * how many three million instructions take. Speaks by semihosting. */
#include <stdint.h>

#define DEEP 6400

static uint32_t now(void);
static uintptr_t stack(void);
static void paint(void);
static uint32_t started, ended;
static uintptr_t top;

#define BEFORE()         \
    do {                 \
        top = stack();   \
        paint();         \
        started = now(); \
    } while (0)
#define AFTER()        \
    do {               \
        ended = now(); \
    } while (0)
#include "driver.h"

__asm__(".section .rodata.cases\n.balign 4\n.global cases_start, cases_end, sums_start\n"
        "sums_start: .incbin \"" CASES ".sums\"\ncases_start: .incbin \"" CASES "\"\ncases_end:\n.balign 4\n.text\n");
extern const uint8_t cases_start[], cases_end[];
extern const uint32_t sums_start[];

int main(void);

#ifdef __riscv
__attribute__((naked, section(".vectors"))) void reset(void)
{
    __asm__ volatile("la sp, stack_top\n call main\n 1: j 1b");
}
static void host(int operation, const void *with)
{
    register int a0 __asm__("a0") = operation;
    register const void *a1 __asm__("a1") = with;
    __asm__ volatile(".option push\n.option norvc\n.balign 16\nslli x0, x0, 0x1f\nebreak\nsrai x0, x0, 7\n.option pop"
                     : "+r"(a0)
                     : "r"(a1)
                     : "memory");
}
static void clock(void) {}
static uint32_t now(void)
{
    uint32_t n;
    __asm__ volatile("csrr %0, minstret"
                     : "=r"(n));
    return n;
}
static uint32_t between(uint32_t a, uint32_t b) { return b - a; }
static inline __attribute__((always_inline)) uintptr_t stack(void)
{
    uintptr_t sp;
    __asm__ volatile("mv %0, sp"
                     : "=r"(sp));
    return sp;
}
static void three_million(uint32_t turns) { __asm__ volatile("1: nop\n addi %0, %0, -1\n bnez %0, 1b"
                                                             : "+r"(turns)); }
#else
extern uint32_t stack_top, data_start, data_end, data_load, bss_start, bss_end;
static void host(int operation, const void *with)
{
    register int r0 __asm__("r0") = operation;
    register const void *r1 __asm__("r1") = with;
    __asm__ volatile("bkpt 0xab"
                     : "+r"(r0)
                     : "r"(r1)
                     : "memory");
}
static void fault(void)
{
    host(4, "fault\n");
    host(0x18, (const void *)0x20023);
    for (;;) {
    }
}
void reset(void)
{
    for (uint32_t *p = &data_start, *q = &data_load; p < &data_end;) *p++ = *q++;
    for (uint32_t *p = &bss_start; p < &bss_end;) *p++ = 0;
    main();
    for (;;) {
    }
}
__attribute__((section(".vectors"), used)) static void *const vectors[16] = {&stack_top, (void *)reset, (void *)fault, (void *)fault};
#define SYSTICK ((volatile uint32_t *)0xE000E010)
static void clock(void)
{
    SYSTICK[1] = 0xffffff;
    SYSTICK[0] = 5;
}
static uint32_t now(void) { return SYSTICK[2]; }
static uint32_t between(uint32_t a, uint32_t b) { return (a - b) & 0xffffff; }
static inline __attribute__((always_inline)) uintptr_t stack(void)
{
    uintptr_t sp;
    __asm__ volatile("mov %0, sp"
                     : "=r"(sp));
    return sp;
}
static void three_million(uint32_t turns) { __asm__ volatile("1: sub %0, #1\n cmp %0, #0\n bne 1b"
                                                             : "+r"(turns)
                                                             :
                                                             : "cc"); }
#endif

static void say(const char *text)
{
    host(4, text);
}
static void number(uint64_t n)
{
    char t[24];
    int i = 23;
    t[i] = 0;
    do {
        t[--i] = (char)('0' + n % 10);
        n /= 10;
    } while (n);
    say(t + i);
}

/* The stack below the caller is painted, and then looked at. */
static volatile uint32_t *bottom;
static __attribute__((noinline)) void paint(void)
{
    bottom = (volatile uint32_t *)((stack() - DEEP) & ~(uintptr_t)3);
    for (uint32_t i = 0; i < DEEP / 4; i++) bottom[i] = 0x5a5a5a5a;
}
static uint32_t used(void)
{
    uint32_t i = 0;
    while (i < DEEP / 4 && bottom[i] == 0x5a5a5a5a) i++;
    return (uint32_t)(top - (uintptr_t)(bottom + i));
}

static struct {
    uint32_t made, differ, deepest, most, accepted;
    uint64_t all, all_accepted;
} calls[CALLS];

int main(void)
{
    const uint32_t *wanted = sums_start;
    clock();
    uint32_t then = now();
    three_million(1000000);
    say("ticks ");
    number(between(then, now()));
    say("\n");
    for (next = cases_start; next < cases_end;) {
        uint8_t call = *next++;
        uint32_t got = answer(call);
        if (call >= CALLS) {
            wanted++;
            continue;
        }
        uint32_t ticks = between(started, ended), deep = used();
        calls[call].made++;
        calls[call].differ += got != *wanted++;
        calls[call].all += ticks;
        calls[call].accepted += told == 0;
        calls[call].all_accepted += told == 0 ? ticks : 0;
        if (ticks > calls[call].most) calls[call].most = ticks;
        if (deep > calls[call].deepest) calls[call].deepest = deep;
    }
    for (int i = 0; i < CALLS; i++) {
        const uint64_t said[] = {calls[i].made, calls[i].differ, calls[i].deepest, calls[i].most, calls[i].all, calls[i].accepted, calls[i].all_accepted};
        say(call_names[i]);
        for (int k = 0; k < 7; k++) {
            say(" ");
            number(said[k]);
        }
        say("\n");
    }
    host(0x18, (const void *)0x20026);
    return 0;
}
