# Hundreds of bytes are watched at once: a list of structs, a block of the disk, and a struct behind a pointer.
break main
continue
delete
watch buffers
continue
continue
backtrace 2
watch memory[1]
watch -l *(struct superblock *)memory[0]
info watchpoints
continue
continue
reverse-continue
reverse-continue
delete
watch memory[0]
watch memory
continue
print sizeof(memory)
