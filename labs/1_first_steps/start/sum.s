; The checksum of the bytes at `input`: a count, and so many bytes. In EAX.
.sep
.data
input:  .data4 3
        .data1 1, 2, 3
        .space 57
.text
        mov eax, 0
        int 33
