; A driver that counts presses on interrupt line 5, and after each ignores the line until an alarm rings.
.sep
.data
buf:    .space 36
count:  .data4 0
closed: .data4 0                ; 1 from a press until its alarm
.text
        mov dword [buf+4], 0x603 ; IRQCTL
        mov dword [buf+8], 1    ; take
        mov dword [buf+12], 5   ; line 5
        mov ecx, 3              ; SENDREC
        mov eax, -2             ; the kernel
        mov ebx, buf
        int 33
wait:   mov ecx, 2              ; RECEIVE
        mov eax, 31438          ; from anybody
        int 33
        cmp dword [buf], -1     ; the hardware
        jz press
        mov dword [closed], 0   ; the clock
        jmp wait
press:  cmp dword [closed], 0
        jnz wait                ; ignored
        mov dword [closed], 1
        add dword [count], 1
        mov eax, [count]
        add eax, 0x30           ; the digit
        mov [buf+16], eax
        mov dword [buf+4], 0x604 ; DEVIO
        mov dword [buf+8], 1    ; write
        mov dword [buf+12], 0   ; register 0, the console
        mov ecx, 3
        mov eax, -2
        int 33
        mov dword [buf+4], 0x602 ; SETALARM
        mov dword [buf+8], 1    ; one tick from now
        mov ecx, 3
        mov eax, -2
        int 33
        jmp wait
