; A disk of ten blocks. It tells the name server that it is there, and then answers who reads a block. Its
; tenth read goes wrong: it looks outside of its memory, and faults.
.sep
.data
buf:    .space 36
reads:  .data4 0
blocks: .data4 1, 4, 9, 16, 25, 36, 49, 64, 81, 100
.text
        mov dword [buf+4], 1    ; the disk is there
        mov ecx, 3              ; SENDREC
        mov eax, 0              ; the name server
        mov ebx, buf
        int 33
next:   mov ecx, 2              ; RECEIVE
        mov eax, 31438          ; from anyone
        int 33
        add dword [reads], 1
        cmp dword [reads], 10
        jz broken
        mov edx, [buf+8]        ; the block's number
        mov eax, [edx*4+blocks]
        mov [buf+8], eax        ; what stands there
        mov eax, [buf]          ; to who reads
        mov ecx, 1              ; SEND
        int 33
        jmp next
broken: mov eax, [0x7fffffff]
        jmp next
