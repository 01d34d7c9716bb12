; A driver that receives from anyone, and sends each message back to who sent it.
.sep
.data
buf: .space 36
.text
top: mov ecx, 2
mov eax, 31438
mov ebx, buf
int 33
mov eax, [buf]
mov ecx, 1
int 33
jmp top
