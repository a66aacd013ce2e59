// The first instructions of an image: one processor goes on, with vector registers, which the compiler uses, and a stack.
.section .text.start,"ax"
.globl _start
_start:
    mrs x0, mpidr_el1
    tst x0, #0xff
    b.ne halt
    mrs x0, CurrentEL
    cmp x0, #(2 << 2)
    b.lo 1f                     // EL1
    b.eq 2f                     // EL2
    msr CPTR_EL3, xzr
2:  mov x0, #0x33ff             // no trap; the bits that are always 1
    msr CPTR_EL2, x0
1:  mov x0, #(3 << 20)
    msr CPACR_EL1, x0
    isb
    ldr x0, =stack_top
    mov sp, x0
    bl bare_main
halt:
    wfe
    b halt

.section .text.counter,"ax"
.globl counter, counter_frequency, counter_milliseconds
counter:
    isb
    mrs x0, cntpct_el0
    ret
counter_frequency:
    mrs x0, cntfrq_el0
    ret
// In milliseconds, modulo 2^32: whole seconds, and the rest.
counter_milliseconds:
    isb
    mrs x0, cntpct_el0
    mrs x1, cntfrq_el0
    mov x2, #1000
    udiv x3, x0, x1             // seconds
    msub x0, x3, x1, x0
    mul x0, x0, x2
    udiv x0, x0, x1
    madd x0, x3, x2, x0
    ret

.section .text.psci,"ax"
.globl psci_off_by_hvc, psci_off_by_smc
psci_off_by_hvc:
    mov w0, #8
    movk w0, #0x8400, lsl #16
    hvc #0
psci_off_by_smc:
    mov w0, #8
    movk w0, #0x8400, lsl #16
    smc #0
