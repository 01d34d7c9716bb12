; Asks the server (slot 0) twice, writes a dot for each answer, and ends.
.sep
.data
buf:    .space 36
left:   .data4 2
.text
ask:    mov ecx, 3              ; SENDREC
        mov eax, 0
        mov ebx, buf
        int 33
        mov dword [buf+4], 0x604 ; DEVIO
        mov dword [buf+8], 1    ; write
        mov dword [buf+12], 0   ; register 0, the console
        mov dword [buf+16], 0x2e
        mov ecx, 3
        mov eax, -2             ; the kernel
        int 33
        sub dword [left], 1
        jnz ask
        mov dword [buf+4], 0x600 ; EXIT
        mov ecx, 3
        mov eax, -2
        int 33
