; A block server. A client that writes a block grants it the block's 16 bytes for reading, and says where they
; are. The server copies them. Then it is curious, and tries 32. If the client is dead, it tries to copy from
; the process that has come in its place.
.sep
.data
buf:    .space 36
client: .data4 0                ; the client's endpoint
place:  .data4 0                ; the address of its block
block:  .space 32               ; what was copied
.text
next:   mov ecx, 2              ; RECEIVE
        mov eax, 31438          ; from anyone
        mov ebx, buf
        int 33
        mov eax, [buf]
        mov [client], eax
        mov eax, [buf+8]
        mov [place], eax
        mov edx, 16
        call copy
        cmp eax, -105
        jz dead
        mov edx, 32
        call copy
        mov dword [buf+4], 0    ; the block is written
        mov ecx, 1              ; SEND
        mov eax, [client]
        int 33
        jmp next
dead:   mov dword [buf+4], 0x607 ; WHOIS
        mov dword [buf+8], 1    ; slot 1
        mov ecx, 3
        mov eax, -2
        int 33
        mov eax, [buf+8]
        mov [client], eax
        mov edx, 16
        call copy
        jmp next
; Copies EDX bytes of the client's block. EAX is the result.
copy:   mov dword [buf+4], 0x605 ; VIRCOPY
        mov eax, [client]       ; from the client
        mov [buf+8], eax
        mov eax, [place]
        mov [buf+12], eax
        mov dword [buf+16], 0   ; to itself
        mov dword [buf+20], block
        mov [buf+24], edx
        mov ecx, 3              ; SENDREC
        mov eax, -2             ; the kernel
        int 33
        mov eax, [buf+4]
        ret
