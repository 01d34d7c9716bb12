/* A partner of the labs' checks: it does what its plan says, and ends. The grader writes the plan over what is here. */
#include "mx.h"

/* What a line of the plan does. */
#define STOP 0
#define ASK 1                   /* SENDREC */
#define TELL 2                  /* SEND, without waiting for an answer */
#define POKE 3                  /* NOTIFY */
#define TAKE 4                  /* RECEIVE */
#define WORK 5                  /* so many kernel calls that are refused */
#define LINES 128

struct line {
    int32_t what, to, type, words[2];
};

volatile struct line plan[LINES] = {{STOP, 1, 0, {0, 0}}};

static void work(int calls)
{
    message m = {.m_type = 0};

    while (calls-- > 0)
        sendrec(SYSTEM, &m);
}

int main(void)
{
    int i;

    for (i = 0; i < LINES && plan[i].what != STOP; i++) {
        message m = {.m_type = plan[i].type, .p = {plan[i].words[0], plan[i].words[1]}};

        switch (plan[i].what) {
        case ASK: sendrec(plan[i].to, &m); break;
        case TELL: send(plan[i].to, &m); break;
        case POKE: notify(plan[i].to); break;
        case TAKE: receive(plan[i].to, &m); break;
        default: work(plan[i].to); break;
        }
    }
    return 0;
}
