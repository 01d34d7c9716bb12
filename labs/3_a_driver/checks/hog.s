; A process of a better level than the driver's. After each tick it makes ten kernel calls, a turn each, and the
; driver has to wait for that time.
.sep
.data
buf:    .space 36
.text
        mov ebx, buf
again:  mov dword [buf+4], 0x602 ; SETALARM
        mov dword [buf+8], 1
        mov ecx, 3              ; SENDREC
        mov eax, -2             ; the kernel
        int 33
        mov ecx, 2              ; RECEIVE
        mov eax, -3             ; from the clock
        int 33
        mov esi, 10
busy:   mov dword [buf+4], 0x601 ; TIMES
        mov ecx, 3
        mov eax, -2
        int 33
        sub esi, 1
        jnz busy
        jmp again
