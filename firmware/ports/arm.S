// The first instructions of an image: a stack. Only the first processor runs.
.section .text.start,"ax"
.globl _start
_start:
    ldr sp, =stack_top
    bl bare_main
1:  wfe
    b 1b
