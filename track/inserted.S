/*
 * dym_told_inserted: tells a store that the compiler doesn't tell, at the address in %rdi. dymelor-cc writes its call before such a store, where
 * the compiler expects none, so that every other register, and the flags, stay as they are.
 */
        .text
        .globl  dym_told_inserted
        .type   dym_told_inserted, @function
dym_told_inserted:
        pushfq
        cld
        pushq   %rax
        pushq   %rcx
        pushq   %rdx
        pushq   %rsi
        pushq   %r8
        pushq   %r9
        pushq   %r10
        pushq   %r11
        pushq   %rbx
        pushq   %rbp
        movq    %rsp, %rbp
        movq    %rdi, %rbx
        andq    $-16, %rsp
        call    dym_told_is_known
        testl   %eax, %eax
        jnz     1f
        /* The library may use all registers: those of vectors and of floating point are kept as the processor has them. */
        call    dym_told_state_bytes
        subq    %rax, %rsp
        andq    $-64, %rsp
        cmpq    $512, %rax
        je      2f
        leaq    512(%rsp), %rdi
        movl    $8, %ecx
        xorl    %eax, %eax
        rep stosq
        movl    $-1, %eax
        movl    $-1, %edx
        xsave64 (%rsp)
        movq    %rbx, %rdi
        call    dym_told_1
        movl    $-1, %eax
        movl    $-1, %edx
        xrstor64 (%rsp)
        jmp     1f
2:
        fxsave64 (%rsp)
        movq    %rbx, %rdi
        call    dym_told_1
        fxrstor64 (%rsp)
1:
        movq    %rbp, %rsp
        popq    %rbp
        popq    %rbx
        popq    %r11
        popq    %r10
        popq    %r9
        popq    %r8
        popq    %rsi
        popq    %rdx
        popq    %rcx
        popq    %rax
        popfq
        ret
        .size   dym_told_inserted, .-dym_told_inserted
        .section .note.GNU-stack, "", @progbits
