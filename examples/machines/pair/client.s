; A client that sends a message to the process with endpoint 0, waits for the answer, and exits.
.sep
.data
buf: .space 36
.text
mov ecx, 3
mov eax, 0
mov ebx, buf
int 33
mov dword [buf+4], 0x600
mov ecx, 3
mov eax, -2
int 33
