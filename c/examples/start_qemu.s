@ Begins and ends a program for a Cortex-M4 that is linked with -nostdlib, so that qemu-arm runs it as a program of Linux,
@ which gives it a stack. On a board your own startup code has this place.
    .syntax unified
    .cpu cortex-m4
    .thumb

@ The program's status is the number that main returns.
    .global _start
    .thumb_func
_start:
    bl main
    b exit

@ The library calls it only at places that the proofs show to be out of reach.
    .global abort
    .thumb_func
abort:
    movs r0, #134

@ The system call 1 of Linux ends the program.
exit:
    movs r7, #1
    svc #0
