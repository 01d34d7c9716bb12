; A driver that takes interrupt line 5, counts the interrupts, and writes each count as a digit.
.sep
.data
buf:    .space 36
count:  .data4 0
.text
        mov dword [buf+4], 0x603 ; IRQCTL
        mov dword [buf+8], 1    ; take
        mov dword [buf+12], 5   ; line 5
        mov ecx, 3              ; SENDREC
        mov eax, -2             ; the kernel
        mov ebx, buf
        int 33
wait:   mov ecx, 2              ; RECEIVE
        mov eax, -1             ; from the hardware
        int 33
        add dword [count], 1
        mov eax, [count]
        add eax, 0x30           ; the digit
        mov [buf+16], eax
        mov dword [buf+4], 0x604 ; DEVIO
        mov dword [buf+8], 1    ; write
        mov dword [buf+12], 0   ; register 0, the console
        mov ecx, 3
        mov eax, -2
        int 33
        jmp wait
