"""A model of the machine's kernel, written apart from its code, after docs/use/REFERENCE.md: processes, messages, kernel
calls, windows, queues, events, histories, scripts' answers, reports.

What a process runs is an *image*, which the model's user makes. It has these methods:

    run(most, until)  makes at most so many steps, up to a trap, a fault, or EIP at `until`: how many, and None, "trap",
                      the number of a fault, or "stopped". The step that traps or faults is counted
    trap_words()      ECX, EAX and EBX at a trap
    answer(result)    puts the result into EAX; the process goes on behind the trap
    read(at, count)   the bytes there, or None if they aren't all inside
    write(at, data)
    end()             the process is dead

A service is a dictionary: name, traps, send, calls, level, best, quantum, restarts, and `image`, which makes its image.
"""
import struct

HARDWARE, SYSTEM, CLOCK, ANY = -1, -2, -3, 31438
OK, EPERM, EFAULT, EINVAL, ELOCKED = 0, -1, -14, -22, -101
EBADSRCDST, ECALLDENIED, EDEADDST, ENOTREADY, EBADREQUEST = -103, -104, -105, -106, -107
SEND, RECEIVE, SENDREC, NOTIFY = 1, 2, 3, 4
EXIT, TIMES, SETALARM, IRQCTL, DEVIO, VIRCOPY, KILL, WHOIS, GRANT = range(0x600, 0x609)
NAMES = {40: "NotDown", 41: "Worn", 42: "NoService", 50: "CpuBusy", 51: "CpuEmpty", 52: "LogFull", 53: "NoLine",
         54: "NoProcess", 55: "AtStop"}
# A message is nine dwords.
SIZE, WORDS = 36, 9
# The report has the console's last bytes.
KEPT = 4096
# A copy is of this many bytes at most.
MOST_COPIED = 65536
READS, WRITES = 1, 2


def signed(value):
    return value - (1 << 32) if value & 0x80000000 else value


class Process:
    """A slot: its service, and the process that it has now."""

    def __init__(self, slot, service):
        self.slot, self.service = slot, service
        self.generation, self.used = 0, 0
        self.start()

    def start(self):
        self.level, self.ticks, self.steps = self.service["level"], self.service["quantum"], 0
        self.image = self.service["image"]()
        self.state, self.partner, self.buffer = "ready", None, None
        self.pending, self.lines, self.alarm = set(), 0, None
        self.windows = {}  # for an endpoint: address, length, access
        self.count, self.stop = 0, None

    @property
    def endpoint(self):
        return self.generation * 1024 + self.slot

    def is_down(self):
        return self.state.startswith("down")

    def is_out(self):
        return self.state in ("out", "doomed")

    def is_worn(self):
        return self.used >= self.service["restarts"] or self.generation >= (1 << 20) - 1

    def message(self):
        """The nine words of its message; the first one as a signed number."""
        return struct.unpack("<i8I", self.image.read(self.buffer, SIZE))

    def put_message(self, words):
        self.image.write(self.buffer, struct.pack("<9I", *(it & 0xFFFFFFFF for it in words)))


class Machine:
    """The kernel, with its processors and its history."""

    def __init__(self, services, cpus=1, log=1 << 20, rules=2):
        self.rules, self.log = rules, log
        self.all = [Process(slot, it) for slot, it in enumerate(services)]
        self.queues = [[] for _ in range(16)]
        self.renewed, self.senders = None, []  # who got the last new quantum; who is sending, in order
        self.owners, self.registers = {}, [0] * 256
        self.uptime, self.console, self.written = 0, b"", 0
        self.cpus = [None] * cpus
        self.history = []
        for it in self.all:
            self.queues[it.level].append(it)

    # ---- events: each gives the number of its refusal, or None

    def free(self):
        return self.log - len(self.history) - sum(it is not None for it in self.cpus)

    def first_ready(self):
        return next((queue[0] for queue in self.queues if queue), None)

    def held(self, cpu):
        return self.cpus[cpu] if cpu < len(self.cpus) else None

    def take(self, cpu):
        if cpu >= len(self.cpus) or self.cpus[cpu] is not None:
            return 50
        process = self.first_ready()
        if process is None:
            return 54
        if self.free() < 2:
            return 52
        self.queues[process.level].remove(process)
        process.state, process.count, process.stop = "out", 0, None
        self.cpus[cpu] = process
        self.history.append((cpu, "take"))
        return None

    def step(self, cpu, most, until=None):
        """At most so many steps of what a processor holds; how many were made, or the refusal."""
        process = self.held(cpu)
        if process is None:
            return None, 51
        if process.stop not in (None, "stopped") or process.count >= process.ticks:
            return None, 55
        made, process.stop = process.image.run(min(most, process.ticks - process.count), until)
        process.count += made
        return made, None

    def back(self, cpu):
        process = self.held(cpu)
        if process is None:
            return 51
        self.cpus[cpu] = None
        self.history.append((cpu, f"back {process.count}"))
        process.ticks -= process.count
        process.steps += process.count
        if process.state == "doomed":
            self.die(process, "kill")
        elif process.stop == "trap":
            process.state = "home"
            self.trap(process)
        elif process.stop in (None, "stopped"):
            self.queue(process)
        else:
            self.die(process, f"fault {process.stop}")
        return None

    def line(self, actor, line):
        owner = self.owners.get(line)
        if owner is None:
            return 53
        if self.free() < 1:
            return 52
        self.history.append((actor, f"line {line}"))
        owner.lines |= 1 << line
        self.notify(owner, HARDWARE)
        return None

    def tick(self, actor):
        if self.free() < 1:
            return 52
        self.history.append((actor, "tick"))
        self.uptime += 1
        for it in self.all:
            if it.alarm is not None and it.alarm <= self.uptime:
                it.alarm = None
                self.notify(it, CLOCK)
        return None

    def kill(self, actor, endpoint):
        process = self.alive(endpoint)
        if process is None:
            return 54
        if self.free() < 1:
            return 52
        self.history.append((actor, f"kill {endpoint}"))
        if process.is_out():
            process.state = "doomed"
        else:
            self.die(process, "kill")
        return None

    def respawn(self, actor, slot):
        if slot >= len(self.all):
            return 42
        process = self.all[slot]
        if not process.is_down():
            return 40
        if process.is_worn():
            return 41
        if self.free() < 1:
            return 52
        self.history.append((actor, f"respawn {slot}"))
        process.generation += 1
        process.used += 1
        process.start()
        self.queues[process.level].append(process)
        return None

    def event(self, actor, words):
        """A record's event that isn't a back."""
        return {"take": lambda: self.take(actor), "line": lambda: self.line(actor, int(words[1])),
                "tick": lambda: self.tick(actor), "kill": lambda: self.kill(actor, int(words[1])),
                "respawn": lambda: self.respawn(actor, int(words[1]))}[words[0]]()

    # ---- what the kernel does

    def slot_of(self, endpoint):
        at = endpoint & 1023
        return self.all[at] if 0 <= endpoint < 1 << 30 and at < len(self.all) else None

    def alive(self, endpoint):
        """Who has this endpoint, if that one is alive."""
        found = self.slot_of(endpoint)
        return None if found is None or found.is_down() or found.endpoint != endpoint else found

    def queue(self, process):
        """With ticks left to the front of its queue. With none left it gets a new quantum, and goes to the end of the
        queue below if it was also the last that got one, else of the queue above, as far as it may."""
        process.state, process.partner = "ready", None
        if process.ticks > 0:
            self.queues[process.level].insert(0, process)
            return
        lower = 1 if self.renewed is process else -1
        process.level = min(14, max(process.service["best"], process.level + lower))
        process.ticks, self.renewed = process.service["quantum"], process
        self.queues[process.level].append(process)

    def go_on(self, process, result):
        process.image.answer(result & 0xFFFFFFFF)
        self.queue(process)

    def receives_from(self, process, source):
        return process.state == "receiving" and process.partner in (ANY, source)

    def notification(self, to, source):
        bits = 0
        if source == HARDWARE:
            bits, to.lines = to.lines, 0
        return [source, 4096, self.uptime, bits, 0, 0, 0, 0, 0]

    def notify(self, to, source):
        """Makes a notification pending, or delivers it."""
        if self.receives_from(to, source):
            to.put_message(self.notification(to, source))
            self.go_on(to, OK)
        else:
            to.pending.add(source)

    def check(self, caller, call, other, buffer):
        pseudo = other in (HARDWARE, SYSTEM, CLOCK)
        if call not in (SEND, RECEIVE, SENDREC, NOTIFY) or not caller.service["traps"] >> call & 1:
            return ECALLDENIED
        if pseudo and call in (SEND, NOTIFY):
            return ECALLDENIED
        named = None if pseudo or other == ANY else self.slot_of(other)
        if other == ANY and call != RECEIVE or not pseudo and other != ANY and named is None:
            return EBADSRCDST
        if call == SENDREC and other in (HARDWARE, CLOCK):
            return EBADSRCDST
        if call != NOTIFY and caller.image.read(buffer, SIZE) is None:
            return EFAULT
        if call != RECEIVE and named is not None and not caller.service["send"] >> named.slot & 1:
            return ECALLDENIED
        if named is not None and self.alive(other) is None:
            return EDEADDST
        if call in (SEND, SENDREC) and named is not None and self.leads_to(named, caller):
            return ELOCKED
        return OK

    def leads_to(self, process, caller):
        """Whether a process waits for the caller, by way of those that it is sending to."""
        while process is not None and process is not caller:
            process = self.slot_of(process.partner) if process.state in ("sending", "calling") else None
        return process is caller

    def trap(self, caller):
        call, other, caller.buffer = caller.image.trap_words()
        other = signed(other)
        refusal = self.check(caller, call, other, caller.buffer)
        if refusal:
            self.go_on(caller, refusal)
        elif call == NOTIFY:
            self.notify(self.slot_of(other), caller.endpoint)
            self.go_on(caller, OK)
        elif call == RECEIVE:
            self.receive(caller, other)
        elif other == SYSTEM:
            self.kernel_call(caller)
        else:
            self.send(caller, call, self.slot_of(other))

    def deliver(self, sender, to):
        to.put_message([sender.endpoint, *sender.message()[1:]])

    def send(self, caller, call, to):
        waits = to.state == "awaiting" and to.partner == caller.endpoint
        if not waits and not self.receives_from(to, caller.endpoint):
            caller.state, caller.partner = ("sending" if call == SEND else "calling"), to.endpoint
            self.senders.append(caller)
            return
        self.deliver(caller, to)
        self.go_on(to, OK)
        if call == SEND:
            self.go_on(caller, OK)
        else:
            caller.state, caller.partner = "awaiting", to.endpoint

    def receive(self, caller, source):
        for it in (HARDWARE, CLOCK, *(other.endpoint for other in self.all)):
            if it in caller.pending and source in (ANY, it):
                caller.pending.remove(it)
                caller.put_message(self.notification(caller, it))
                self.go_on(caller, OK)
                return
        for it in self.senders:
            if it.partner == caller.endpoint and source in (ANY, it.endpoint):
                self.senders.remove(it)
                self.deliver(it, caller)
                if it.state == "calling":
                    it.state = "awaiting"
                else:
                    self.go_on(it, OK)
                self.go_on(caller, OK)
                return
        caller.state, caller.partner = "receiving", source

    # ---- kernel calls: each gives its result, and the words of its answer

    def kernel_call(self, caller):
        _, kind, *words = caller.message()
        if not EXIT <= kind <= (GRANT if self.rules == 2 else WHOIS):
            result, answer = EBADREQUEST, []
        elif not caller.service["calls"] >> (kind - EXIT) & 1:
            result, answer = ECALLDENIED, []
        else:
            result, answer = self.served(caller, kind, words)
            if caller.is_down():
                return
        words = ((answer if result == OK else []) + [0] * 7)[:7]
        caller.put_message([SYSTEM, result, *words])
        self.go_on(caller, OK)

    def served(self, caller, kind, words):
        if kind == EXIT:
            self.die(caller, "exit")
            return OK, []
        if kind == TIMES:
            return OK, [self.uptime, caller.steps & 0xFFFFFFFF, caller.steps >> 32]
        if kind == SETALARM:
            left = max(caller.alarm - self.uptime, 0) if caller.alarm is not None else 0
            caller.alarm = self.uptime + words[0] if words[0] else None
            return OK, [left]
        if kind == DEVIO:
            return self.device(*words[:3])
        if kind == WHOIS:
            found = self.all[words[0]] if words[0] < len(self.all) else None
            result = EINVAL if found is None else EDEADDST if found.is_down() else OK
            return result, [found.endpoint] if result == OK else []
        calls = {IRQCTL: (self.own_line, 2), VIRCOPY: (self.copy, 5), KILL: (self.kill_for, 1), GRANT: (self.grant, 4)}
        call, count = calls[kind]
        return call(caller, *words[:count]), []

    def refused(self, endpoint):
        """The result of a call that names this endpoint, if nobody alive has it."""
        if self.slot_of(signed(endpoint)) is None:
            return EBADSRCDST
        return EDEADDST if self.alive(endpoint) is None else None

    def kill_for(self, caller, endpoint):
        refusal = self.refused(endpoint)
        if refusal:
            return refusal
        process = self.alive(endpoint)
        if process.is_out():
            return ENOTREADY
        self.die(process, "exit" if process is caller else "kill")
        return OK

    def own_line(self, caller, take, line):
        if take > 1 or line > 15:
            return EINVAL
        owner = self.owners.get(line)
        if take and owner not in (None, caller) or not take and owner is not caller:
            return EPERM
        if take:
            self.owners[line] = caller
        else:
            del self.owners[line]
        return OK

    def device(self, write, register, value):
        if write > 1 or register > 255:
            return EINVAL, []
        if not write:
            return OK, [self.registers[register] if register else 0]
        if register == 0:
            self.console = (self.console + bytes([value & 255]))[-KEPT:]
            self.written += 1
        else:
            self.registers[register] = value
        return OK, []

    def grant(self, caller, to, at, count, access):
        if access > (READS | WRITES) or to == caller.endpoint:
            return EINVAL
        refusal = self.refused(to)
        if refusal:
            return refusal
        if access and caller.image.read(at, count) is None:
            return EFAULT
        caller.windows[to] = (at, count, access)
        return OK

    def is_open(self, caller, process, at, count, access):
        """Whether a process lets the caller copy there; by rules 1 each does."""
        if process is caller or self.rules == 1:
            return True
        start, length, granted = process.windows.get(caller.endpoint, (0, 0, 0))
        return granted & access != 0 and start <= at and at + count <= start + length

    def copy(self, caller, source, at, target, to, count):
        if count > MOST_COPIED:
            return EINVAL
        refusal = self.refused(source) or self.refused(target)
        if refusal:
            return refusal
        one, other = self.alive(source), self.alive(target)
        if one.is_out() or other.is_out():
            return ENOTREADY
        if not self.is_open(caller, one, at, count, READS) or not self.is_open(caller, other, to, count, WRITES):
            return EPERM
        data = one.image.read(at, count)
        if data is None or other.image.read(to, count) is None:
            return EFAULT
        other.image.write(to, data)
        return OK

    def die(self, process, cause):
        for queue in self.queues:
            if process in queue:
                queue.remove(process)
        if process in self.senders:
            self.senders.remove(process)
        callers = [it for it in self.senders if it.partner == process.endpoint]
        receivers = [it for it in self.all
                     if it is not process and it.state in ("receiving", "awaiting") and it.partner == process.endpoint]
        for it in callers:
            self.senders.remove(it)
            self.go_on(it, EDEADDST)
        for it in receivers:
            self.go_on(it, EDEADDST)
        for it in self.all:
            it.pending.discard(process.endpoint)
            it.windows.pop(process.endpoint, None)
        process.pending, process.lines, process.alarm, process.partner, process.windows = set(), 0, None, None, {}
        self.owners = {line: it for line, it in self.owners.items() if it is not process}
        process.state = "down " + cause
        process.image.end()

    # ---- what is seen

    def is_at_rest(self):
        return (self.first_ready() is None and all(it is None for it in self.cpus)
                and all(it.is_worn() for it in self.all if it.is_down()))

    def state(self, process, modulo=1 << 32):
        if process.partner is None or process.is_down():
            return process.state
        partner = "any" if process.partner == ANY else process.partner if process.partner < 0 else process.partner % modulo
        return f"{process.state} {partner}"

    def report(self):
        lines = [f"{it.slot} {it.service['name']} {it.endpoint} {self.state(it)} {it.level} {it.ticks}" for it in self.all]
        text = "\n".join([*lines, f"uptime {self.uptime}", f"console {self.written}", ""])
        return text.encode() + self.console

    def saved(self):
        return "".join(f"{it}\n" for it in [f"rules {self.rules}", *(f"{actor} {what}" for actor, what in self.history)])

    # ---- what a line of a script is answered

    def answered(self, words):
        other = len(self.cpus)
        if words[0] == "step":
            return self.stepped(int(words[1]), int(words[2]))
        if words[0] == "take":
            cpu = int(words[1])
            refusal = self.take(cpu)
            done = f"taken {self.cpus[cpu].endpoint} budget {self.cpus[cpu].ticks}" if refusal is None else None
        elif words[0] == "back":
            held = self.held(int(words[1]))
            refusal = self.back(int(words[1]))
            done = f"returned {held.count}" if refusal is None else None
        elif words[:2] == ["kill", "slot"]:
            slot = int(words[2])
            refusal, done = self.kill(other, self.all[slot].endpoint) if slot < len(self.all) else 54, "done"
        else:
            refusal = self.event(other, words)
            done = f"respawned {self.all[int(words[1])].endpoint}" if words[0] == "respawn" and refusal is None else "done"
        return done if refusal is None else refused_words(refusal)

    def stepped(self, cpu, most):
        """What `step CPU N` is answered."""
        return "stepped 0 go" if most == 0 else self.steps_words(cpu, *self.step(cpu, most))

    def steps_words(self, cpu, made, refusal):
        """What steps are answered that were made, or refused."""
        if refusal is not None:
            return refused_words(refusal)
        stop = self.cpus[cpu].stop
        return f"stepped {made} {'go' if stop is None else stop if stop == 'trap' else f'fault {stop}'}"


def refused_words(refusal):
    return f"refused {refusal} {NAMES[refusal]}"
