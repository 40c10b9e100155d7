# For bench/stalls --self-test: in each function planted_.. a load meets a store that has not all of its bytes; in those named clean_.. none does.
        .intel_syntax noprefix
        .text

        .macro begin name
        .globl \name
        .type \name, @function
\name:
        .endm

        begin planted_narrow            # a length stored, and the array copied on another path behind a branch
        mov word ptr [rdi+4], si
        test esi, esi
        je 1f
        inc esi
1:      movups xmm0, xmmword ptr [rdi]
        movups xmmword ptr [rdx], xmm0
        ret

        begin planted_two_words         # two words, taken as one of 16 bytes by way of another register
        push rbp
        mov rbp, rsp
        sub rsp, 64
        mov qword ptr [rsp+16], rdi
        mov qword ptr [rsp+24], rsi
        movups xmm0, xmmword ptr [rbp-48]
        movups xmmword ptr [rdx], xmm0
        leave
        ret

        begin planted_grid              # as wide, but off by a few bytes
        movups xmmword ptr [rdi], xmm0
        movups xmmword ptr [rdi+16], xmm0
        movups xmm1, xmmword ptr [rdi+4]
        movups xmmword ptr [rdx], xmm1
        ret

        .type fills, @function
fills:  mov dword ptr [rdi], esi
        mov word ptr [rdi+4], 0
        ret

        begin planted_answer            # what a callee has put into a struct, copied by its caller
        push rbx
        mov rbx, rdx
        sub rsp, 48
        lea rdi, [rsp+8]
        call fills
        movups xmm0, xmmword ptr [rsp+8]
        movups xmmword ptr [rbx], xmm0
        add rsp, 48
        pop rbx
        ret

        .type takes, @function
takes:  movups xmm0, xmmword ptr [rdi]
        movups xmmword ptr [rsi], xmm0
        ret

        begin planted_lent              # what is lent to a callee, which takes it wide
        sub rsp, 24
        mov byte ptr [rsp+3], dl
        mov rdi, rsp
        call takes
        add rsp, 24
        ret

        begin planted_jump              # the same behind a jump in the place of a call
        mov byte ptr [rdi+3], dl
        jmp takes

        begin planted_spilled           # the pointer kept in a stack slot
        sub rsp, 24
        mov qword ptr [rsp+8], rdi
        mov byte ptr [rdi+3], dl
        xor edi, edi
        mov rcx, qword ptr [rsp+8]
        mov rax, qword ptr [rcx]
        add rsp, 24
        ret

        begin planted_copied            # a copy by the library
        sub rsp, 56
        mov word ptr [rsp+20], si
        mov rsi, rsp
        mov edx, 40
        call memcpy@plt
        add rsp, 56
        ret

        begin planted_table             # one way of a jump table
        mov word ptr [rdi+2], si
        lea rcx, [rip+table]
        movsxd rax, dword ptr [rcx+rdx*4]
        add rax, rcx
        jmp rax
2:      movzx eax, word ptr [rdi+2]
        ret
3:      mov eax, dword ptr [rdi]
        ret

        begin planted_repacketizer_put  # two calls on one collector, one behind the other
        mov word ptr [rdi+2], si
        ret
        begin planted_repacketizer_get
        mov eax, dword ptr [rdi+2]
        ret

        begin clean_same
        mov qword ptr [rdi+8], rsi
        mov rax, qword ptr [rdi+8]
        ret

        begin clean_inside
        movups xmmword ptr [rdi], xmm0
        mov eax, dword ptr [rdi+12]
        ret

        begin clean_covered             # the youngest store has all of the load
        mov word ptr [rdi+4], si
        movups xmmword ptr [rdi], xmm0
        movups xmm1, xmmword ptr [rdi]
        movups xmmword ptr [rdx], xmm1
        ret

        begin clean_beside
        mov word ptr [rdi+16], si
        movups xmm1, xmmword ptr [rdi]
        add rdi, 18
        movups xmm2, xmmword ptr [rdi]
        ret

        begin clean_other               # another pointer in the same register
        mov word ptr [rdi], si
        mov rdi, qword ptr [rdx]
        mov eax, dword ptr [rdi]
        ret

        begin clean_loop                # what one instruction loads is another pointer at each turn
1:      mov rdi, qword ptr [rdx]
        mov eax, dword ptr [rdi]
        mov word ptr [rdi], si
        dec ecx
        jne 1b
        ret

        begin clean_far
        mov word ptr [rdi], si
        .rept 100
        inc eax
        .endr
        mov eax, dword ptr [rdi]
        ret

        .section .rodata
        .balign 4
table:  .long 2b - table, 3b - table
        .section .note.GNU-stack, "", @progbits
