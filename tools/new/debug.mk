
# The last run in gdb, forward and back, with each program as a process.
debug: machine.log
	gdb -q -x mx.gdb -ex 'mx machine.config machine.log'

# A history of older programs isn't one of these.
machine.log: $(programs:=.out) machine.config | all
	./run >out/run.printed

.PHONY: debug
