; A consumer that takes all items that are made at each notification, and writes a dot for each. After three it tells the
; producer (slot 0), and ends.
.sep
.data
buf:    .space 36
taken:  .data4 0
made:   .data4 0
.text
next:   mov ecx, 2              ; RECEIVE
        mov eax, 31438          ; from anybody
        mov ebx, buf
        int 33
        mov dword [buf+4], 0x604 ; DEVIO
        mov dword [buf+8], 0    ; read
        mov dword [buf+12], 1   ; register 1, how many are made
        mov ecx, 3              ; SENDREC
        mov eax, -2             ; the kernel
        int 33
        mov eax, [buf+8]
        mov [made], eax
more:   mov eax, [taken]
        cmp eax, [made]
        jz next
        mov dword [buf+4], 0x604 ; DEVIO
        mov dword [buf+8], 1    ; write
        mov dword [buf+12], 0   ; register 0, the console
        mov dword [buf+16], 0x2e
        mov ecx, 3
        mov eax, -2
        int 33
        add dword [taken], 1
        cmp dword [taken], 3
        jnz more
        mov ecx, 1              ; SEND
        mov eax, 0
        int 33
        mov dword [buf+4], 0x600 ; EXIT
        mov ecx, 3
        mov eax, -2
        int 33
