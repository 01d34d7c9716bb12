; A driver. It waits for a question, doubles the number in it, and sends it back.
.sep
.data
buf:    .space 36               ; a message: source, type, and the words p0 to p6
.text
top:    mov ecx, 2              ; RECEIVE
        mov eax, 31438          ; from anybody
        mov ebx, buf            ; into buf
        int 33
        mov eax, [buf+8]        ; p0, the number
        add eax, eax
        mov [buf+8], eax
        mov ecx, 1              ; SEND
        mov eax, [buf]          ; to the source of the question
        mov ebx, buf
        int 33
        jmp top
