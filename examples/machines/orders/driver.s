; A driver that answers each request with 1.
.sep
.data
buf:    .space 36
.text
next:   mov ecx, 2              ; RECEIVE
        mov eax, 31438          ; from anybody
        mov ebx, buf
        int 33
        mov dword [buf+8], 0x31
        mov ecx, 1              ; SEND
        mov eax, [buf]
        int 33
        jmp next
