# To positions.
mx session.config LOG
inferior 3
mx-goto 2000
info threads
backtrace 2
next
reverse-next
mx-goto 187.66
next
mx-goto end
info threads
monitor ps
reverse-continue
monitor where
