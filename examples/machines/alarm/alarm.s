; A client that sets an alarm for three ticks from now, waits for it, writes the time as a digit, and exits.
.sep
.data
buf:    .space 36
.text
        mov dword [buf+4], 0x602 ; SETALARM
        mov dword [buf+8], 3    ; three ticks from now
        mov ecx, 3              ; SENDREC
        mov eax, -2             ; the kernel
        mov ebx, buf
        int 33
        mov ecx, 2              ; RECEIVE
        mov eax, -3             ; from the clock
        int 33
        mov eax, [buf+8]        ; the time
        add eax, 0x30           ; the digit
        mov [buf+16], eax
        mov dword [buf+4], 0x604 ; DEVIO
        mov dword [buf+8], 1    ; write
        mov dword [buf+12], 0   ; register 0, the console
        mov ecx, 3
        mov eax, -2
        int 33
        mov dword [buf+4], 0x600 ; EXIT
        mov ecx, 3
        mov eax, -2
        int 33
