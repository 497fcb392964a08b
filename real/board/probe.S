@ The program of a case. It asks the boot ROM which partition it was started from, and then to reboot
@ into BOOTSEL, and hands over its number, and the partition in the bits from 8 on. They come back as
@ the second parameter of the reboot in the board's boot information, so an image that starts tells
@ so with no cable but USB. Written from memory of the SDK's headers.
@ contents.py has its machine code; make.py compares the two where an assembler is there.
    .syntax unified
    .cpu cortex-m33
    .thumb
    movs r4, #0x16              @ the ROM's function that finds a function by its code: at 0x16 in
    movs r3, #0x13              @ a ROM of version 2, which is revision A2, and else at 0x18
    ldrb r3, [r3]
    cmp r3, #2
    beq 1f
    movs r4, #0x18
1:  ldrh r4, [r4]
    ldr r0, ticks               @ the watchdog's tick, without which no reboot falls due
    movs r1, #12
    str r1, [r0, #4]
    movs r1, #1
    str r1, [r0]
    ldr r0, get_sys_info
    movs r1, #4                 @ for secure Arm code
    blx r4
    mov r5, r0
    sub sp, #24
    mov r0, sp
    movs r1, #5                 @ words
    movs r2, #0x40              @ the boot information
    blx r5
    movs r6, #0x7f              @ the partition where the ROM does not tell
    cmp r0, #0
    blt 2f
    ldr r6, [sp, #4]
    lsrs r6, r6, #16
    uxtb r6, r6
2:  ldr r0, reboot
    movs r1, #4
    blx r4
    mov r5, r0
    ldr r0, flags
    movs r1, #10                @ milliseconds
    movs r2, #0
    ldr r3, number
    lsls r6, r6, #8
    orrs r3, r6
    blx r5
3:  b 3b
    .p2align 2
ticks:  .word 0x40108030        @ the watchdog's tick: control, and cycles behind it
get_sys_info: .word 0x5347      @ "GS"
reboot: .word 0x4252            @ "RB"
flags:  .word 0x102             @ to BOOTSEL, and without a return
number: .word 0x11223344
