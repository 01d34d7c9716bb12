; Works for a while on each request, and sends the answer to the server (slot 0).
.sep
.data
buf:    .space 36
.text
next:   mov ecx, 2              ; RECEIVE
        mov eax, 31438          ; from anybody
        mov ebx, buf
        int 33
        mov ecx, 20
work:   loop work
        mov ecx, 1              ; SEND
        mov eax, 0
        int 33
        jmp next
