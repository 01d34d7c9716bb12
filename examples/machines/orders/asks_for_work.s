; Asks the server (slot 0) for work, by the answer to the last one, and works for a while on it.
.sep
.data
buf:    .space 36
.text
next:   mov ecx, 3              ; SENDREC
        mov eax, 0
        mov ebx, buf
        int 33
        mov ecx, 20
work:   loop work
        jmp next
