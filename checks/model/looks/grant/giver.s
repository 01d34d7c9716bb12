; A process that opens 16 bytes at 64 to endpoint 1 for reading, and then runs past the end of its text.
.sep
.data
buf:    .space 36
.text
        mov dword [buf+4], 0x608 ; GRANT
        mov dword [buf+8], 1    ; to endpoint 1
        mov dword [buf+12], 64  ; at 64
        mov dword [buf+16], 16  ; 16 bytes
        mov dword [buf+20], 1   ; for reading
        mov ecx, 3              ; SENDREC
        mov eax, -2             ; the kernel
        mov ebx, buf
        int 33
