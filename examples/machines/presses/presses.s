; A driver that counts the interrupts of line 5, and answers each message with the count so far.
.sep
.data
buf:    .space 36
count:  .data4 0
.text
        mov dword [buf+4], 0x603 ; IRQCTL
        mov dword [buf+8], 1    ; take
        mov dword [buf+12], 5   ; line 5
        mov ecx, 3              ; SENDREC
        mov eax, -2             ; the kernel
        mov ebx, buf
        int 33
wait:   mov ecx, 2              ; RECEIVE
        mov eax, 31438          ; from anybody
        int 33
        cmp dword [buf], -1     ; of the hardware?
        jnz asked
        add dword [count], 1
        jmp wait
asked:  mov eax, [count]
        mov [buf+8], eax        ; the answer's first word
        mov eax, [buf]          ; to who asked
        mov ecx, 1              ; SEND
        int 33
        jmp wait
