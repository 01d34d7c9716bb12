; A client that writes a block: it grants the server the block's 16 bytes for reading, asks it, and exits.
.sep
.data
buf:    .space 36
block:  .ascii "my sixteen bytes"
secret: .ascii "nobody else's..."
.text
        mov dword [buf+4], 0x608 ; GRANT
        mov dword [buf+8], 0    ; to the server
        mov dword [buf+12], block
        mov dword [buf+16], 16
        mov dword [buf+20], 1   ; for reading
        mov ecx, 3              ; SENDREC
        mov eax, -2             ; the kernel
        mov ebx, buf
        int 33
        mov dword [buf+4], 1    ; write a block
        mov dword [buf+8], block
        mov ecx, 3
        mov eax, 0              ; the server
        int 33
        mov dword [buf+4], 0x600 ; EXIT
        mov ecx, 3
        mov eax, -2
        int 33
