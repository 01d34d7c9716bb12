; A client that reads the ten blocks of the disk and adds them up. If the disk is dead, it asks the name
; server for the next one and reads on. At the end it writes its letter if the sum is right, else a
; question mark, and exits.
.sep
.data
buf:    .space 36
disk:   .data4 -1               ; the disk that it knows; none yet
self:   .data4 0
block:  .data4 0
sum:    .data4 0
.text
ask:    mov dword [buf+4], 2    ; who is the disk?
        mov eax, [disk]
        mov [buf+8], eax        ; not this one
        mov ecx, 3              ; SENDREC
        mov eax, 0              ; the name server
        mov ebx, buf
        int 33
        mov eax, [buf+8]
        mov [disk], eax
        mov eax, [buf+12]
        mov [self], eax
read:   mov dword [buf+4], 3
        mov eax, [block]
        mov [buf+8], eax
        mov ecx, 3              ; SENDREC
        mov eax, [disk]
        int 33
        cmp eax, 0
        jnz ask                 ; the disk is dead
        mov eax, [buf+8]
        add [sum], eax
        add dword [block], 1
        cmp dword [block], 10
        jnz read
        mov eax, 63             ; a question mark
        cmp dword [sum], 385
        jnz write
        mov eax, [self]
        add eax, 95             ; 97, an a, for slot 2
write:  mov [buf+16], eax
        mov dword [buf+4], 0x604 ; DEVIO
        mov dword [buf+8], 1    ; write
        mov dword [buf+12], 0   ; register 0, the console
        mov ecx, 3
        mov eax, -2             ; the kernel
        int 33
        mov dword [buf+4], 0x600 ; EXIT
        mov ecx, 3
        mov eax, -2
        int 33
