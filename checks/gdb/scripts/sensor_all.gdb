# All services: a driver that dies by a wild pointer, and its client.
mx sensor.config LOG
inferior 2
continue
backtrace
info threads
watch current
reverse-continue
inferior 2
backtrace
delete
continue
continue
info threads
inferior 1
break main
reverse-continue
monitor why
reverse-continue
