# What compilers call without being asked, for programs whose instructions are counted: the C library's own depends on
# the processor and on where its operands lie. And `nothing`, which only returns.
.text
.globl nothing, memcpy, memset
nothing:
    ret
memcpy:
    mov %rdi, %rax
    mov %rdx, %rcx
    shr $3, %rcx
    rep movsq
    mov %edx, %ecx
    and $7, %ecx
    rep movsb
    ret
memset:
    mov %rdi, %r8
    movzbl %sil, %eax
    movabs $0x0101010101010101, %rcx
    imul %rcx, %rax
    mov %rdx, %rcx
    shr $3, %rcx
    rep stosq
    mov %edx, %ecx
    and $7, %ecx
    rep stosb
    mov %r8, %rax
    ret
.section .note.GNU-stack, "", @progbits
