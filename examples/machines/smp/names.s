; A name server, which knows one name: who the disk is. The disk tells it after each start. A client asks,
; and says which disk it has seen fail; while no other one has come, it waits for its answer.
.sep
.data
buf:    .space 36
disk:   .data4 -1               ; the disk's endpoint; none yet
count:  .data4 0                ; how many clients wait
list:   .space 16               ; their endpoints
.text
next:   mov ecx, 2              ; RECEIVE
        mov eax, 31438          ; from anyone
        mov ebx, buf
        int 33
        mov eax, [buf]          ; who it is
        cmp dword [buf+4], 1
        jz new
        mov edx, [disk]
        cmp edx, [buf+8]        ; the disk that has failed
        jz wait
        call tell
        jmp next
wait:   mov ecx, [count]
        mov [ecx*4+list], eax
        add dword [count], 1
        jmp next
new:    mov [disk], eax         ; the disk tells that it is there
        call tell
more:   cmp dword [count], 0    ; and who waits for it is told
        jz next
        sub dword [count], 1
        mov ecx, [count]
        mov eax, [ecx*4+list]
        call tell
        jmp more
tell:   mov [buf+12], eax       ; who asks
        mov edx, [disk]
        mov [buf+8], edx        ; who the disk is
        mov ecx, 1              ; SEND
        int 33
        ret
