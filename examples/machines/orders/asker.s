; Asks the name server (slot 0) who has the name, asks that one, and writes its answer; or a question mark, if that fails.
.sep
.data
buf:    .space 36
.text
        mov dword [buf+4], 2
        mov ecx, 3              ; SENDREC
        mov eax, 0
        mov ebx, buf
        int 33
        mov eax, [buf+8]        ; who has the name
        mov ecx, 3
        int 33
        cmp eax, 0
        mov eax, [buf+8]
        jz say
        mov eax, 0x3f
say:    mov [buf+16], eax
        mov dword [buf+4], 0x604 ; DEVIO
        mov dword [buf+8], 1    ; write
        mov dword [buf+12], 0   ; register 0, the console
        mov ecx, 3
        mov eax, -2             ; the kernel
        int 33
        mov dword [buf+4], 0x600 ; EXIT
        mov ecx, 3
        mov eax, -2
        int 33
