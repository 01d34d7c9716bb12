; A driver of a button (line 3) and a sensor (line 5).
.sep
.data
buf:    .space 36
is_down:.data4 0                ; the button counts as pressed
due:    .data4 0                ; the uptime at which it counts as released
now:    .data4 0                ; the uptime of the last notification
bits:   .data4 0                ; its lines
.text
        mov edi, 3
        call take
        mov edi, 5
        call take
wait:   mov ecx, 2              ; RECEIVE
        mov eax, 31438          ; from anybody
        mov ebx, buf
        int 33
        mov eax, [buf+8]
        mov [now], eax
        mov dword [bits], 0     ; CLOCK has no lines
        cmp dword [buf], -1
        jnz due_is
        mov eax, [buf+12]
        mov [bits], eax
        test eax, 8
        jz due_is
        mov dword [buf+4], 0x602 ; SETALARM, before any letter: a tick that comes meanwhile counts
        mov dword [buf+8], 3
        call kernel
due_is: call release            ; by HARDWARE or by CLOCK: the time tells
        test dword [bits], 32
        jz button
        mov edi, 0x73           ; s
        call put
button: test dword [bits], 8
        jz wait
        cmp dword [is_down], 0
        jnz bounce
        mov dword [is_down], 1
        mov edi, 0x70           ; p
        call put
bounce: mov eax, [now]
        add eax, 3
        mov [due], eax
        jmp wait

; Writes an r if the button is down and its time is over.
release:cmp dword [is_down], 0
        jz short no
        mov eax, [now]
        cmp eax, [due]
        jb short no
        mov dword [is_down], 0
        mov edi, 0x72           ; r
        call put
no:     ret

; Writes the letter in EDI on the console.
put:    mov dword [buf+4], 0x604 ; DEVIO
        mov dword [buf+8], 1    ; write
        mov dword [buf+12], 0   ; register 0
        mov [buf+16], edi
        jmp kernel

; Takes the line in EDI.
take:   mov dword [buf+4], 0x603 ; IRQCTL
        mov dword [buf+8], 1    ; take
        mov [buf+12], edi
kernel: mov ecx, 3              ; SENDREC
        mov eax, -2             ; the kernel
        mov ebx, buf
        int 33
        ret
