; Tells the name server (slot 0) that it has the name, then answers each request with 7.
.sep
.data
buf:    .space 36
.text
        mov dword [buf+4], 1
        mov ecx, 3              ; SENDREC
        mov eax, 0
        mov ebx, buf
        int 33
next:   mov ecx, 2              ; RECEIVE
        mov eax, 31438          ; from anybody
        int 33
        mov dword [buf+8], 0x37
        mov ecx, 1              ; SEND
        mov eax, [buf]
        int 33
        jmp next
