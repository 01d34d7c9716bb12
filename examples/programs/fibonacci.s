; the tenth Fibonacci number, by recursive calls
.sep
        push 10
        call fib
        add esp, 4
        int 33

; the number whose place is on the stack, in EAX
fib:    mov eax, [esp+4]
        cmp eax, 2
        jnb short calls
        ret
calls:  dec eax
        push eax
        call fib
        xchg [esp], eax        ; keep the first result, and take n - 1 back
        dec eax
        push eax
        call fib
        add esp, 4
        pop ecx
        add eax, ecx
        ret
