; three times 5
.sep
        mov ecx, 3
again:  add eax, 5
        sub ecx, 1
        jnz short again
        int 33
