# From process to process.
mx session.config LOG
inferior 2
break main
continue
continue
info threads
reverse-stepi
stepi
continue
info threads
inferior 2
stepi
info threads
delete
inferior 3
tbreak write_inode
continue
info threads
reverse-next
next
next
inferior 5
reverse-step
info threads
inferior 3
break put_block
inferior 5
next
next
inferior 5
reverse-finish
reverse-continue
info threads
thread 2.1
stepi
