; the greatest common divisor of 1071 and 462: the remainder takes the smaller one's place until it is 0
.sep
        mov eax, 1071
        mov ecx, 462
next:   mov edx, 0
        div ecx                 ; EDX is the remainder
        mov eax, ecx
        mov ecx, edx
        cmp ecx, 0
        jnz short next
        int 33
