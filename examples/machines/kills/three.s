; A client that asks its driver three times, each time with the answer before, and writes each answer as a digit.
; If the driver is gone, it asks the kernel who is in slot 0 now, and asks again.
.sep
.data
buf:    .space 36
whom:   .data4 0                ; the driver's endpoint
last:   .data4 0                ; the answer before
left:   .data4 3                ; how many questions are left
.text
ask:    mov eax, [last]
        mov [buf+8], eax
        mov ecx, 3              ; SENDREC
        mov eax, [whom]
        mov ebx, buf
        int 33
        cmp eax, 0
        jnz gone
        mov eax, [buf+8]
        mov [last], eax
        add eax, 0x30           ; the digit
        mov [buf+16], eax
        mov dword [buf+4], 0x604 ; DEVIO
        mov dword [buf+8], 1    ; write
        mov dword [buf+12], 0   ; register 0, the console
        mov ecx, 3
        mov eax, -2             ; the kernel
        int 33
        sub dword [left], 1
        jnz ask
        mov dword [buf+4], 0x600 ; EXIT
        mov ecx, 3
        mov eax, -2
        int 33
gone:   mov dword [buf+4], 0x607 ; WHOIS
        mov dword [buf+8], 0    ; slot 0
        mov ecx, 3
        mov eax, -2
        int 33
        mov eax, [buf+8]
        mov [whom], eax
        jmp ask
