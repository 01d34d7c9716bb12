; A driver of a button (line 3) and a sensor (line 5). It takes line 5 and receives, and does nothing else.
.sep
.data
buf:    .space 36
.text
        mov dword [buf+4], 0x603 ; IRQCTL
        mov dword [buf+8], 1    ; take
        mov dword [buf+12], 5   ; line 5
        mov ecx, 3              ; SENDREC
        mov eax, -2             ; the kernel
        mov ebx, buf
        int 33
wait:   mov ecx, 2              ; RECEIVE
        mov eax, 31438          ; from anybody
        int 33
        jmp wait
