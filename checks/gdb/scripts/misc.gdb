# What else gdb has: tbreak, until, advance, display, conditions, and what is refused.
break mount
continue
info registers
print $eflags
finish
tbreak serve
continue
backtrace full
info line
advance unlink
display self
next
next
info display
x/4i $pc
x/8xw $esp
info symbol $pc
print volume
print &volume
set var self=5
print self
set $eax=1
rwatch self
watch volume.zones
info watchpoints
delete
watch -l volume.zones if volume.zones > 5
delete
hbreak serve
thbreak serve
continue
step
step
step
reverse-step
reverse-step
reverse-next
reverse-finish
until
advance send
find &volume, +sizeof(volume), (int)2
delete
tbreak inode_at
break *0x800004ad if $eax != 0
continue
info registers eax eip
monitor nonsense
monitor list 2
monitor messages
info threads
kill
