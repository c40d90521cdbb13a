# For tests/probes: two functions with a probe of the stack, as the compiler writes it. In `good` r11 is used after it alone, in `bad` it holds a value before.
        .text
        .globl  good
good:
        movq    %rsp, %r11
        subq    $0x3000, %r11
1:      subq    $0x1000, %rsp
        movq    $0, (%rsp)
        cmpq    %r11, %rsp
        jne     1b
        movq    %rdi, %r11
        addq    $0x3000, %rsp
        retq
        .globl  bad
bad:
        movl    %esi, %r11d
        cmpq    $16, %r11
        ja      3f
        movq    %rsp, %r11
        subq    $0x3000, %r11
2:      subq    $0x1000, %rsp
        movq    $0, (%rsp)
        cmpq    %r11, %rsp
        jne     2b
        movq    %r11, (%rdi)
        addq    $0x3000, %rsp
3:      retq
