/* Begins interface/tests/ on a board with 4 MB: newlib speaks by semihosting. */
#include <stdint.h>
extern uint32_t stack_top, data_start, data_end, data_load;
extern void _start(void);
static void first(void)
{
    for (uint32_t *p = &data_start, *q = &data_load; p < &data_end;) *p++ = *q++;
    _start();
}
static void fault(void)
{
    register int r0 __asm__("r0") = 0x18;
    register int r1 __asm__("r1") = 0x20023;
    __asm__ volatile("bkpt 0xab"
                     :
                     : "r"(r0), "r"(r1));
    for (;;) {
    }
}
__attribute__((section(".vectors"), used)) static void *const vectors[16] = {
    &stack_top, (void *)first, (void *)fault, (void *)fault, (void *)fault, (void *)fault, (void *)fault};
