; The driver of a keyboard. It shows each byte that is typed. A byte comes as interrupts: lines 8 to 15 are its bits, and
; line 7, which is raised after them, says that it is whole. The next one comes when register 255 has counted this one.
.sep
.data
buf:    .space 36               ; a message: source, type, and the words p0 to p6
line:   .data4 15               ; the next line to take
raised: .data4 0                ; the lines of the byte that comes
count:  .data4 0                ; how many bytes were taken, also by a driver before this one
.text
start:  mov dword [buf+4], 0x604 ; DEVIO
        mov dword [buf+8], 0    ; p0: read
        mov dword [buf+12], 255 ; p1: register 255
        call kernel
        mov eax, [buf+8]        ; p0 of the answer, what it has
        mov [count], eax

take:   mov dword [buf+4], 0x603 ; IRQCTL
        mov dword [buf+8], 1    ; p0: take
        mov eax, [line]         ; p1: the line
        mov [buf+12], eax
        call kernel
        sub dword [line], 1     ; line 7 is the last: whoever owns all nine is the keyboard's driver
        cmp dword [line], 6
        jnz take

wait:   mov ecx, 2              ; RECEIVE
        mov eax, -1             ; from the hardware
        mov ebx, buf
        int 33
        mov eax, [buf+12]       ; p1, the lines that were raised
        or [raised], eax
        mov eax, [raised]
        and eax, 0x80           ; line 7?
        jz wait
        add dword [count], 1
        mov eax, [count]
        mov ecx, 255            ; into register 255: the byte is taken
        call put
        mov eax, [raised]
        shr eax, 8              ; the byte
        mov ecx, 0              ; into register 0, the console
        call put
        mov dword [raised], 0
        jmp wait

; Writes the word in EAX into the register in ECX.
put:    mov [buf+16], eax       ; p2
        mov [buf+12], ecx       ; p1
        mov dword [buf+8], 1    ; p0: write
        mov dword [buf+4], 0x604 ; DEVIO
kernel: mov ecx, 3              ; SENDREC
        mov eax, -2             ; to the kernel
        mov ebx, buf
        int 33
        ret
.entry start
