# What gdb 13 wants to be told of a machine; then `mx CONFIG LOG` begins, with each service as a process of its own, if the
# command mx is in the PATH:
#     gdb -x mx.gdb -ex 'mx session.config run.log'
# At the begin the whole history is walked once, which gdb has to wait for.
set remotetimeout 600
# Its caches of memory and registers forget only what it resumed itself, and here all processes move.
set stack-cache off
set code-cache off
python
gdb.events.stop.connect(lambda event: gdb.execute('maintenance flush register-cache', to_string=True))
end
# It takes stops of its first process for a part of connecting until that one has moved: at the begin this moves nothing.
define mx
    target remote | mx gdb $arg0 $arg1
    reverse-stepi
end
# `mx-goto K.J`: to a position
define mx-goto
    monitor goto $arg0
    maintenance flush register-cache
    frame
end
