; A name server of one name. Type 1: the sender has the name. Type 2: who has it? The answer is the endpoint, or -1.
.sep
.data
buf:    .space 36
has:    .data4 -1
.text
next:   mov ecx, 2              ; RECEIVE
        mov eax, 31438          ; from anybody
        mov ebx, buf
        int 33
        cmp dword [buf+4], 1
        jnz answer
        mov eax, [buf]
        mov [has], eax
answer: mov eax, [has]
        mov [buf+8], eax
        mov ecx, 1              ; SEND
        mov eax, [buf]          ; to who asked
        int 33
        jmp next
