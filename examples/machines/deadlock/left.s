; Sends a message to the process with endpoint 1, and exits.
.sep
.data
buf:    .space 36
.text
        mov ecx, 1              ; SEND
        mov eax, 1
        mov ebx, buf
        int 33
        mov dword [buf+4], 0x600 ; EXIT
        mov ecx, 3              ; SENDREC
        mov eax, -2             ; the kernel
        int 33
