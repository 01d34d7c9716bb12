; A driver without memory: to a number it answers the next one.
.sep
.data
buf:    .space 36
.text
top:    mov ecx, 2              ; RECEIVE
        mov eax, 31438          ; from anyone
        mov ebx, buf
        int 33
        add dword [buf+8], 1    ; the next number
        mov eax, [buf]          ; to who asked
        mov ecx, 1              ; SEND
        int 33
        jmp top
