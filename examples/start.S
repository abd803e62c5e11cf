# The start of a program, and threads. `start` calls main and leaves with its answer.
        .text
        .globl start
start:  xor %ebp, %ebp
        and $-16, %rsp
        call main
        mov %eax, %edi
        mov $231, %eax
        syscall

# spawn(function, argument, stack): both wait on the new thread's stack, which takes them from there
        .globl spawn
spawn:  sub $16, %rdx
        mov %rdi, (%rdx)
        mov %rsi, 8(%rdx)
        mov $0x50F00, %edi
        mov %rdx, %rsi
        mov $56, %eax
        syscall
        test %eax, %eax
        jz 1f
        ret
1:      pop %rax
        pop %rdi
        xor %ebp, %ebp
        call *%rax
        xor %edi, %edi
        mov $60, %eax
        syscall
