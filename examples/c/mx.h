/* mx.h: what a process of the machine can ask its kernel, in C.
 *
 * A process reaches the kernel by one instruction, int $33. Everything here is that instruction with
 * its registers filled in: four traps for messages, and nine kernel calls, each of which is a message
 * to the kernel itself.
 */
#ifndef MX_H
#define MX_H

#include <stddef.h>
#include <stdint.h>

/* A message: 36 bytes. The kernel writes m_source when the message is delivered. */
typedef struct {
    int32_t m_source;           /* who sent it: an endpoint */
    int32_t m_type;             /* what is asked, or how it went */
    int32_t p[7];               /* p[0] to p[6]; an address is one of the sender's memory: sys_vircopy */
} message;

_Static_assert(sizeof(message) == 36, "a message is 36 bytes");

/* Endpoints. A service in line i of the configuration has slot i; its endpoint is i at first, and
 * 1024 more after each respawn.
 */
#define HARDWARE (-1)           /* the source of an interrupt's notification */
#define SYSTEM (-2)             /* the kernel, for kernel calls */
#define CLOCK (-3)              /* the source of an alarm's notification */
#define ANY 31438               /* in receive: from whoever comes first */

#define SLOT_OF(endpoint) ((endpoint) & 1023)

/* Results. */
#define OK 0
#define EPERM (-1)              /* the line is another's, or the memory, and not granted */
#define EFAULT (-14)            /* an address outside the memory */
#define EINVAL (-22)            /* a word out of its range */
#define ELOCKED (-101)          /* to send would be a deadlock */
#define EBADSRCDST (-103)       /* no such endpoint */
#define ECALLDENIED (-104)      /* a mask of the configuration forbids it */
#define EDEADDST (-105)         /* the other one is dead, or was respawned since */
#define ENOTREADY (-106)        /* the other one runs on a processor just now */
#define EBADREQUEST (-107)      /* no such request */

/* The numbers of the traps, and their bits in the word after `traps` in a configuration. */
#define SEND 1
#define RECEIVE 2
#define SENDREC 3
#define NOTIFY 4
#define TRAP_BIT(call) (1 << (call))            /* all four: 1e in hexadecimal */

/* The bit of a slot in the word after `send`: to whom a service may send. */
#define SEND_BIT(slot) (1 << (slot))

/* The types of the kernel calls, and their bits in the word after `calls`. */
#define SYS_EXIT 0x600
#define SYS_TIMES 0x601
#define SYS_SETALARM 0x602
#define SYS_IRQCTL 0x603
#define SYS_DEVIO 0x604
#define SYS_VIRCOPY 0x605
#define SYS_KILL 0x606
#define SYS_WHOIS 0x607
#define SYS_GRANT 0x608         /* by rules 2 alone */
#define CALL_BIT(type) (1 << ((type) - SYS_EXIT))

/* The type of every notification. Its p[0] is the uptime; from HARDWARE, p[1] has a bit a line. */
#define NOTIFICATION 0x1000
#define LINE_BIT(line) (1 << (line))

/* Register 0 of the machine is the console: a byte that is written to it is printed. */
#define CONSOLE_REGISTER 0

/* The trap itself: ECX the call, EAX the other one, EBX the buffer; the result comes in EAX. */
static inline int trap(int call, int endpoint, message *m)
{
    int result;

    __asm__ volatile("int $33" : "=a"(result) : "a"(endpoint), "b"(m), "c"(call) : "memory");
    return result;
}

/* Waits until the other one has taken the message. */
static inline int send(int to, message *m)
{
    return trap(SEND, to, m);
}

/* Waits for a message from one endpoint, or from ANY. */
static inline int receive(int from, message *m)
{
    return trap(RECEIVE, from, m);
}

/* Sends the message, and waits for the answer, which takes its place. */
static inline int sendrec(int to, message *m)
{
    return trap(SENDREC, to, m);
}

/* Doesn't wait, and takes no words along: the other one gets NOTIFICATION, with the uptime in p[0]. */
static inline int notify(int to)
{
    return trap(NOTIFY, to, NULL);
}

/* A kernel call: what goes wrong with the trap itself, or else the kernel's result. */
static inline int kernel_call(int type, message *m)
{
    int result;

    m->m_type = type;
    result = sendrec(SYSTEM, m);
    return result == OK ? m->m_type : result;
}

/* Ends this process. It comes back only if the configuration forbids it. */
static inline int sys_exit(void)
{
    message m;

    return kernel_call(SYS_EXIT, &m);
}

/* How many ticks the machine is up, and how many steps this process made since it was started. */
static inline int sys_times(uint32_t *uptime, uint64_t *steps)
{
    message m;
    int result = kernel_call(SYS_TIMES, &m);

    if (result == OK) {
        *uptime = m.p[0];
        *steps = (uint64_t)(uint32_t)m.p[2] << 32 | (uint32_t)m.p[1];
    }
    return result;
}

/* Asks for a notification from CLOCK after so many ticks; 0 asks for none any more. */
static inline int sys_setalarm(uint32_t delay)
{
    message m;

    m.p[0] = delay;
    return kernel_call(SYS_SETALARM, &m);
}

/* Takes an interrupt line, 0 to 15, so that its interrupts come here as notifications. */
static inline int sys_irqtake(int line)
{
    message m;

    m.p[0] = 1;
    m.p[1] = line;
    return kernel_call(SYS_IRQCTL, &m);
}

/* Gives an interrupt line up. */
static inline int sys_irqgive(int line)
{
    message m;

    m.p[0] = 0;
    m.p[1] = line;
    return kernel_call(SYS_IRQCTL, &m);
}

/* Reads a register of the machine, 0 to 255. */
static inline int sys_in(int number, uint32_t *value)
{
    message m;
    int result;

    m.p[0] = 0;
    m.p[1] = number;
    result = kernel_call(SYS_DEVIO, &m);
    if (result == OK)
        *value = m.p[0];
    return result;
}

/* Writes a register of the machine. */
static inline int sys_out(int number, uint32_t value)
{
    message m;

    m.p[0] = 1;
    m.p[1] = number;
    m.p[2] = value;
    return kernel_call(SYS_DEVIO, &m);
}

/* How another process may use what sys_grant lets it. */
#define GRANT_NOTHING 0
#define GRANT_READ 1
#define GRANT_WRITE 2

/* Lets another process copy from so many bytes here, or to them, or both, and no others; it takes the
 * place of what that process was let before. */
static inline int sys_grant(int to, const void *place, uint32_t count, int access)
{
    message m;

    m.p[0] = to;
    m.p[1] = (uint32_t)place;
    m.p[2] = count;
    m.p[3] = access;
    return kernel_call(SYS_GRANT, &m);
}

/* Copies at most 65,536 bytes from one process's memory to another's; either may be the caller. By
 * rules 2 the other one has to have granted it. */
static inline int sys_vircopy(int from, uint32_t from_address, int to, uint32_t to_address,
                              uint32_t count)
{
    message m;

    m.p[0] = from;
    m.p[1] = from_address;
    m.p[2] = to;
    m.p[3] = to_address;
    m.p[4] = count;
    return kernel_call(SYS_VIRCOPY, &m);
}

/* Kills a process. */
static inline int sys_kill(int endpoint)
{
    message m;

    m.p[0] = endpoint;
    return kernel_call(SYS_KILL, &m);
}

/* Which endpoint the service in a slot has now. */
static inline int sys_whois(int slot, int *endpoint)
{
    message m;
    int result;

    m.p[0] = slot;
    result = kernel_call(SYS_WHOIS, &m);
    if (result == OK)
        *endpoint = m.p[0];
    return result;
}

#endif
