# Four processors.
mx session4.config LOG
inferior 3
break write_file
continue
backtrace 3
info threads
inferior 2
tbreak main
reverse-continue
inferior 5
tbreak sendrec
continue
backtrace 2
next
inferior 3
next
reverse-next
continue
continue
info threads
