// The same from C++: a constructor that runs before main would, and a virtual call.
#include <stdint.h>

extern uint32_t stack_top[];
extern "C" void start(void);

struct Light {
    virtual void set(int on) { state = on; }
    volatile int state = 1;
};

static Light light;

extern "C" __attribute__((section(".vectors"), used)) void *const vectors[2] = {stack_top, (void *)start};

extern "C" __attribute__((section(".definition"), used)) const uint32_t definition[5] = {
    0xffffded3, 0x10210142, 0x000001ff, 0, 0xab123579,
};

extern "C" void start(void)
{
    Light *it = &light;
    for (;;)
        it->set(it->state ^ 1);
}
