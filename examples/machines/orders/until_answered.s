; Asks the driver (slot 0) four times and writes the answers. While the driver is dead, it finds the new one and asks again.
.sep
.data
buf:    .space 36
whom:   .data4 0
left:   .data4 4
.text
ask:    mov ecx, 3              ; SENDREC
        mov eax, [whom]
        mov ebx, buf
        int 33
        cmp eax, 0
        jz said
find:   mov dword [buf+4], 0x607 ; WHOIS
        mov dword [buf+8], 0    ; slot 0
        mov ecx, 3
        mov eax, -2             ; the kernel
        int 33
        cmp dword [buf+4], 0
        jnz find
        mov eax, [buf+8]
        mov [whom], eax
        jmp ask
said:   mov eax, [buf+8]
        mov [buf+16], eax
        mov dword [buf+4], 0x604 ; DEVIO
        mov dword [buf+8], 1    ; write
        mov dword [buf+12], 0   ; register 0, the console
        mov ecx, 3
        mov eax, -2
        int 33
        sub dword [left], 1
        jnz ask
        mov dword [buf+4], 0x600 ; EXIT
        mov ecx, 3
        mov eax, -2
        int 33
