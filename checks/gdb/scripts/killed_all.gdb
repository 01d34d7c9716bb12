# A driver that is killed and respawned.
mx session.config LOG
inferior 2
tbreak main
continue
break *0x80000021
continue
monitor why
info threads
reverse-stepi
monitor where
info threads
continue
