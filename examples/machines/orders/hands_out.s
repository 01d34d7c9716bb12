; Waits until the worker (slot 1) asks for work, sends its last answer to the client whose it is, and hands it the request
; of the next client. So it sends only to who awaits it.
.sep
.data
buf:    .space 36
.text
next:   mov ecx, 2              ; RECEIVE
        mov eax, 1              ; from the worker
        mov ebx, buf
        int 33
        mov eax, [buf+8]        ; whose answer it is
        cmp eax, 0
        jz take
        mov ecx, 1              ; SEND
        int 33
take:   mov ecx, 2
        mov eax, 31438          ; from anybody: the worker waits
        int 33
        mov eax, [buf]
        mov [buf+8], eax        ; whose it is
        mov ecx, 1
        mov eax, 1
        int 33
        jmp next
