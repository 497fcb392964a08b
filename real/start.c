// The least firmware that a board starts: a vector table, an image definition, and a start that
// sets .data and .bss up. It is linked for Arm and for RISC-V, by GNU ld and by lld.
#include <stdint.h>

extern uint32_t data_load[], data_start[], data_end[], bss_start[], bss_end[], stack_top[];

void start(void);

uint32_t counter = 0x12345678;
uint32_t cleared[16];
const char banner[] = "firmware";

#if defined(__arm__)
__attribute__((section(".vectors"), used)) void *const vectors[] = {stack_top, (void *)start};
#endif

// The image definition: IMAGE_TYPE, and for RISC-V an ENTRY_POINT; the block is a loop by itself.
#if !defined(NO_DEFINITION)
__attribute__((section(".definition"), used)) const uintptr_t definition[] = {
    0xffffded3,
#if defined(__arm__)
    0x10210142,
    0x000001ff,
#else
    0x11010142,
    0x00000344, (uintptr_t)start, (uintptr_t)stack_top,
    0x000004ff,
#endif
    0,
    0xab123579,
};
#endif

#if defined(EXTRA)
__attribute__((section(".extra"), used)) const char extra[] = "a segment of its own";
#endif

#if !defined(__arm__)
__attribute__((naked, section(".entry")))
#endif
void start(void)
{
#if defined(__arm__)
    uint32_t *from = data_load;
    for (uint32_t *to = data_start; to < data_end; to++)
        *to = *from++;
    for (uint32_t *to = bss_start; to < bss_end; to++)
        *to = 0;
    for (;;)
        counter += banner[counter & 7];
#else
    __asm__ volatile("la sp, stack_top\n 1: j 1b");
#endif
}
