# A fault, and back to who wrote the pointer.
continue
backtrace
print current
watch current
reverse-continue
reverse-continue
print *current
reverse-step
reverse-step
reverse-next
reverse-next
reverse-finish
reverse-stepi
reverse-stepi
stepi
stepi
info watchpoints
delete
reverse-continue
continue
continue
continue
continue
monitor ps
monitor why
monitor goto 12.3
info registers eip
stepi
info registers eip
maintenance flush register-cache
info registers eip
print self = 5
print $eax = 1
monitor continue
detach
