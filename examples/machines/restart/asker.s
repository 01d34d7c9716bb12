; A client that asks the counter again and again, and writes each answer as a digit on the console.
; Where the counter is gone, it asks the kernel who is in slot 0 now.
.sep
.data
buf:    .space 36
whom:   .data4 0                ; the counter's endpoint
.text
ask:    mov ecx, 3              ; SENDREC
        mov eax, [whom]
        mov ebx, buf
        int 33
        cmp eax, 0
        jnz gone
        mov eax, [buf+8]
        add eax, 0x30           ; the digit
        mov [buf+16], eax
        mov dword [buf+4], 0x604 ; DEVIO
        mov dword [buf+8], 1    ; write
        mov dword [buf+12], 0   ; register 0, the console
        mov ecx, 3
        mov eax, -2             ; the kernel
        int 33
        jmp ask
gone:   mov dword [buf+4], 0x607 ; WHOIS
        mov dword [buf+8], 0    ; slot 0
        mov ecx, 3
        mov eax, -2
        int 33
        mov eax, [buf+8]
        mov [whom], eax
        jmp ask
