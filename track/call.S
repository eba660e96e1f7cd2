/*
 * A function that tells what some arguments of a library's function point to, and goes on to that function, which returns to the caller: track/build
 * makes one of each line of the table `functions`, NAME with the arguments FIRST, SECOND and THIRD, of which 0 is none. All arguments
 * stay as they are.
 */
#define JOINED(a, b) a##b
#define TOLD(name) JOINED(dym_told_, name)
#define TELL(number) \
        .if number; \
        movq    8 * (number - 1)(%rsp), %rdi; \
        call    dym_told_1; \
        .endif

        .text
        .globl  TOLD(NAME)
        .type   TOLD(NAME), @function
TOLD(NAME):
        .cfi_startproc
        subq    $200, %rsp
        .cfi_adjust_cfa_offset 200
        movq    %rdi, (%rsp)
        movq    %rsi, 8(%rsp)
        movq    %rdx, 16(%rsp)
        movq    %rcx, 24(%rsp)
        movq    %r8, 32(%rsp)
        movq    %r9, 40(%rsp)
        movq    %rax, 48(%rsp)
        movups  %xmm0, 64(%rsp)
        movups  %xmm1, 80(%rsp)
        movups  %xmm2, 96(%rsp)
        movups  %xmm3, 112(%rsp)
        movups  %xmm4, 128(%rsp)
        movups  %xmm5, 144(%rsp)
        movups  %xmm6, 160(%rsp)
        movups  %xmm7, 176(%rsp)
        TELL(FIRST)
        TELL(SECOND)
        TELL(THIRD)
        movq    (%rsp), %rdi
        movq    8(%rsp), %rsi
        movq    16(%rsp), %rdx
        movq    24(%rsp), %rcx
        movq    32(%rsp), %r8
        movq    40(%rsp), %r9
        movq    48(%rsp), %rax
        movups  64(%rsp), %xmm0
        movups  80(%rsp), %xmm1
        movups  96(%rsp), %xmm2
        movups  112(%rsp), %xmm3
        movups  128(%rsp), %xmm4
        movups  144(%rsp), %xmm5
        movups  160(%rsp), %xmm6
        movups  176(%rsp), %xmm7
        addq    $200, %rsp
        .cfi_adjust_cfa_offset -200
        jmp     *NAME@GOTPCREL(%rip)
        .cfi_endproc
        .size   TOLD(NAME), .-TOLD(NAME)
        .section .note.GNU-stack, "", @progbits
