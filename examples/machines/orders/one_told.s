; A consumer that takes one item for each notification, and writes a dot for it. After three it tells the producer (slot 0),
; and ends.
.sep
.data
buf:    .space 36
left:   .data4 3
.text
next:   mov ecx, 2              ; RECEIVE
        mov eax, 31438          ; from anybody
        mov ebx, buf
        int 33
        mov dword [buf+4], 0x604 ; DEVIO
        mov dword [buf+8], 1    ; write
        mov dword [buf+12], 0   ; register 0, the console
        mov dword [buf+16], 0x2e
        mov ecx, 3              ; SENDREC
        mov eax, -2             ; the kernel
        int 33
        sub dword [left], 1
        jnz next
        mov ecx, 1              ; SEND
        mov eax, 0              ; to the producer
        int 33
        mov dword [buf+4], 0x600 ; EXIT
        mov ecx, 3
        mov eax, -2
        int 33
