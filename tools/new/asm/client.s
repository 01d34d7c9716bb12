; A client. It asks the driver for twice 4, writes the answer on the console, and exits. If the driver dies, it asks the
; one that took its place; if it finds none, it writes `?`.
.sep
.data
buf:    .space 36               ; a message: source, type, and the words p0 to p6
driver: .data4 0                ; the driver's endpoint
tries:  .data4 100              ; how often it still looks for another driver
.text
ask:    mov dword [buf+8], 4    ; p0, the number
        mov ecx, 3              ; SENDREC: send, and wait for the answer
        mov eax, [driver]
        mov ebx, buf
        int 33
        cmp eax, 0              ; EAX is 0 if an answer came; -105 if the driver is dead
        jnz gone
        mov eax, [buf+8]        ; p0, the answer
        add eax, 0x30           ; its digit
end:    call put
        mov eax, 10             ; the end of the line
        call put
        mov dword [buf+4], 0x600 ; EXIT
        mov ecx, 3              ; SENDREC
        mov eax, -2             ; to the kernel
        mov ebx, buf
        int 33

; Asks the kernel who is in slot 0 now. It says 0 OK or an error in the message's type.
gone:   mov eax, 0x3f           ; `?`
        sub dword [tries], 1
        jz end
        mov dword [buf+4], 0x607 ; WHOIS
        mov dword [buf+8], 0    ; p0: slot 0
        mov ecx, 3              ; SENDREC
        mov eax, -2             ; to the kernel
        mov ebx, buf
        int 33
        cmp dword [buf+4], 0
        jnz gone
        mov eax, [buf+8]        ; p0, the new driver's endpoint
        mov [driver], eax
        jmp ask

; Writes the byte in EAX on the console.
put:    mov [buf+16], eax       ; p2, the byte
        mov dword [buf+4], 0x604 ; DEVIO
        mov dword [buf+8], 1    ; p0: write
        mov dword [buf+12], 0   ; p1: register 0, the console
        mov ecx, 3              ; SENDREC
        mov eax, -2             ; to the kernel
        mov ebx, buf
        int 33
        ret
.entry ask
