/* From a PVH loader (`qemu-system-x86_64 -kernel`, Xen) to C in 64-bit mode. The loader enters `start` in 32-bit protected mode without paging, and has
   cleared .bss. The scenario stands behind the code, as its bytes are. */

    .section .note.pvh, "a", @note
    .balign 4
    .long 4, 4, 18                      /* a name and a number of 4 bytes each; XEN_ELFNOTE_PHYS32_ENTRY */
    .asciz "Xen"
    .long start

    .section .rodata
    .globl scenario, scenario_end
scenario:
    .incbin SCENARIO
scenario_end:

    .section .data
    .balign 8
    .globl descriptors
descriptors:
    .quad 0
    .quad 0x00af9a000000ffff            /* 0x08: code of 64 bits */
    .quad 0x00cf92000000ffff            /* 0x10: data */
    .quad 0, 0                          /* 0x18: the task state segment, which interrupts.c describes */
descriptors_pointer:
    .word descriptors_pointer - descriptors - 1
    .long descriptors, 0

    .section .bss
    .balign 4096
pages_4:
    .skip 4096
pages_3:
    .skip 4096
pages_2:
    .skip 4096
    .globl stack, stack_top
stack:
    .skip STACK
stack_top:

    .text
    .code32
    .globl start
start:
    cli
    cld
    /* The first GiB at its own addresses, in pages of 2 MiB. */
    movl $(pages_3 + 3), pages_4
    movl $(pages_2 + 3), pages_3
    movl $0x83, %eax                    /* present, writable, large */
    xorl %ecx, %ecx
1:  movl %eax, pages_2(,%ecx,8)
    addl $0x200000, %eax
    incl %ecx
    cmpl $512, %ecx
    jne 1b
    movl $pages_4, %eax
    movl %eax, %cr3
    movl %cr4, %eax
    orl $0x620, %eax                    /* PAE; OSFXSR and OSXMMEXCPT: without them each SSE instruction is a fault 6 */
    movl %eax, %cr4
    movl $0xc0000080, %ecx              /* EFER */
    rdmsr
    orl $0x100, %eax                    /* LME */
    wrmsr
    movl %cr0, %eax
    andl $0xfffffff3, %eax              /* EM and TS off: SSE is there */
    orl $0x80000002, %eax               /* PG and MP */
    movl %eax, %cr0
    lgdt descriptors_pointer
    ljmp $0x08, $long_mode

    .code64
long_mode:
    movl $0x10, %eax
    movl %eax, %ss
    movl %eax, %ds
    movl %eax, %es
    leaq stack_top(%rip), %rsp          /* a multiple of 16 at the call, as the calling convention wants it */
    xorl %ebp, %ebp
    call main
2:  cli
    hlt
    jmp 2b

    .section .note.GNU-stack, "", @progbits
