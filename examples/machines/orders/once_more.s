; Asks the driver (slot 0) four times and writes the answers. If the driver is dead, it finds the new one and asks once
; more. If that fails too, it writes a question mark and ends.
.sep
.data
buf:    .space 36
whom:   .data4 0
left:   .data4 4
tries:  .data4 0
.text
ask:    mov dword [tries], 2
again:  mov ecx, 3              ; SENDREC
        mov eax, [whom]
        mov ebx, buf
        int 33
        cmp eax, 0
        jz said
        sub dword [tries], 1
        jz lost
find:   mov dword [buf+4], 0x607 ; WHOIS
        mov dword [buf+8], 0    ; slot 0
        mov ecx, 3
        mov eax, -2             ; the kernel
        int 33
        cmp dword [buf+4], 0
        jnz find
        mov eax, [buf+8]
        mov [whom], eax
        jmp again
said:   mov eax, [buf+8]
        call say
        sub dword [left], 1
        jnz ask
        jmp end
lost:   mov eax, 0x3f
        call say
end:    mov dword [buf+4], 0x600 ; EXIT
        mov ecx, 3
        mov eax, -2
        int 33
say:    mov [buf+16], eax
        mov dword [buf+4], 0x604 ; DEVIO
        mov dword [buf+8], 1    ; write
        mov dword [buf+12], 0   ; register 0, the console
        mov ecx, 3
        mov eax, -2
        int 33
        ret
