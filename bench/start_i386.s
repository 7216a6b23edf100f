# What a program that gcc makes for i386 starts with, and the three functions that it may call: each byte is one
# system call, as in the images of pcc.
        .text
        .globl  _start, putchar, getchar, exit
_start: call    main
        movl    %eax, %ebx
        jmp     1f
exit:   movl    4(%esp), %ebx
1:      movl    $1, %eax
        int     $0x80

putchar:
        pushl   %ebx
        movl    $4, %eax
        movl    $1, %ebx
        leal    8(%esp), %ecx
        movl    $1, %edx
        int     $0x80
        movzbl  8(%esp), %eax
        popl    %ebx
        ret

getchar:
        pushl   %ebx
        pushl   $0
        movl    $3, %eax
        movl    $0, %ebx
        movl    %esp, %ecx
        movl    $1, %edx
        int     $0x80
        popl    %ecx
        popl    %ebx
        decl    %eax
        orl     %ecx, %eax
        ret
        .section .note.GNU-stack
