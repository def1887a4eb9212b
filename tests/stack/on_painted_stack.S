/* What C cannot say: a call on another stack, and a function that takes a given number of bytes. System V, x86-64. */

/*
 * Calls painted_function on the stack whose top is painted_top, with the arguments that this function is called with. Six
 * arguments are in registers, and stay there; eight words behind them are copied: the longest exported call has seven, and
 * an even number leaves the stack aligned. A call with fewer does not look at the others.
 */
    .text
    .globl on_painted_stack
    .type on_painted_stack, @function
on_painted_stack:
    push %rbp
    mov %rsp, %rbp
    mov painted_top(%rip), %rsp
    push 72(%rbp)
    push 64(%rbp)
    push 56(%rbp)
    push 48(%rbp)
    push 40(%rbp)
    push 32(%rbp)
    push 24(%rbp)
    push 16(%rbp)
    call *painted_function(%rip)
    mov %rbp, %rsp
    pop %rbp
    ret
    .size on_painted_stack, . - on_painted_stack

/*
 * void take(size_t bytes): takes so many bytes of stack, at least 16: the return address, a gap that nothing is written to,
 * and a register below it.
 */
    .globl take
    .type take, @function
take:
    mov %rsp, %rax
    sub %rdi, %rsp
    add $16, %rsp
    push %rdi
    mov %rax, %rsp
    ret
    .size take, . - take

    .section .note.GNU-stack, "", @progbits
