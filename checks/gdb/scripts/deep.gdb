# The file system: frames, values at each of them, finish with its value, a watch.
break ask_driver
continue
backtrace
print *m
print buffers[0]
print/x *buffers[0].bytes@8
up
info locals
print *buffer
finish
next
next
step
reverse-next
reverse-step
delete
watch buffers[1].block
continue
backtrace 3
reverse-continue
backtrace 2
reverse-finish
info frame
