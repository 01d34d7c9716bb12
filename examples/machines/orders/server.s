; Passes the request of a client on to the worker (slot 1), and the answer of the worker to the client whose it is.
.sep
.data
buf:    .space 36
.text
next:   mov ecx, 2              ; RECEIVE
        mov eax, 31438          ; from anybody
        mov ebx, buf
        int 33
        cmp dword [buf], 1
        jz answer
        mov eax, [buf]
        mov [buf+8], eax        ; whose it is
        mov ecx, 1              ; SEND
        mov eax, 1
        int 33
        jmp next
answer: mov ecx, 1
        mov eax, [buf+8]
        int 33
        jmp next
