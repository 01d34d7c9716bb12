; The same, but who asks for a name that nobody has is kept, and answered when somebody has it. There is room for one.
.sep
.data
buf:    .space 36
has:    .data4 -1
kept:   .data4 -1
.text
next:   mov ecx, 2              ; RECEIVE
        mov eax, 31438          ; from anybody
        mov ebx, buf
        int 33
        cmp dword [buf+4], 1
        jz comes
        cmp dword [has], -1
        jz keep
        mov eax, [buf]
        call answer
        jmp next
keep:   mov eax, [buf]
        mov [kept], eax
        jmp next
comes:  mov eax, [buf]
        mov [has], eax
        call answer
        mov eax, [kept]
        cmp eax, -1
        jz next
        call answer
        mov dword [kept], -1
        jmp next
answer: mov ecx, [has]
        mov [buf+8], ecx
        mov ecx, 1              ; SEND, to EAX
        int 33
        ret
