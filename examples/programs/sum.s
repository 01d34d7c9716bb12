; 5 and 7B hex
.sep
mov eax, 5
add eax, 0x7b
int 33
