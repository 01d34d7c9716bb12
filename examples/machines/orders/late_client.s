; Asks the kernel six times who is in slot 0, and then does as client.s.
.sep
.data
buf:    .space 36
left:   .data4 2
calls:  .data4 6
.text
late:   mov dword [buf+4], 0x607 ; WHOIS
        mov dword [buf+8], 0    ; slot 0
        mov ecx, 3              ; SENDREC
        mov eax, -2             ; the kernel
        mov ebx, buf
        int 33
        sub dword [calls], 1
        jnz late
ask:    mov ecx, 3
        mov eax, 0
        mov ebx, buf
        int 33
        mov dword [buf+4], 0x604 ; DEVIO
        mov dword [buf+8], 1    ; write
        mov dword [buf+12], 0   ; register 0, the console
        mov dword [buf+16], 0x2e
        mov ecx, 3
        mov eax, -2
        int 33
        sub dword [left], 1
        jnz ask
        mov dword [buf+4], 0x600 ; EXIT
        mov ecx, 3
        mov eax, -2
        int 33
