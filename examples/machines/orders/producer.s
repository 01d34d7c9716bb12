; Makes three items, and notifies the consumer (slot 1) after each. How many are made is in register 1 of DEVIO.
.sep
.data
buf:    .space 36
made:   .data4 0
.text
more:   add dword [made], 1
        mov eax, [made]
        mov [buf+16], eax
        mov dword [buf+4], 0x604 ; DEVIO
        mov dword [buf+8], 1    ; write
        mov dword [buf+12], 1   ; register 1
        mov ecx, 3              ; SENDREC
        mov eax, -2             ; the kernel
        mov ebx, buf
        int 33
        mov ecx, 4              ; NOTIFY
        mov eax, 1
        int 33
        cmp dword [made], 3
        jnz more
        mov dword [buf+4], 0x600 ; EXIT
        mov ecx, 3
        mov eax, -2
        int 33
