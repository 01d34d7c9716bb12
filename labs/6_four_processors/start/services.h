/* What the services of lab 6 say to each other. Each request is answered to who sent it: the type of the answer is
 * OK, or what the line says. */

/* The name server, in slot 0. */
#define NAMES_SLOT 0
#define REGISTER 1              /* p[0] a name: the sender has this name from now on */
#define LOOKUP 2                /* p[0] a name: p[0] of the answer is the endpoint that has it */
#define MOST_NAMES 8            /* names are 0 to 7 */
#define NAME_QUEUE 1
#define NAME_JUDGE 2

/* The queue. */
#define PUT 1                   /* p[0] an item */
#define GET 2                   /* p[0] of the answer is the item; or the answer is ENDED */
#define TRY 3                   /* as GET, but if no item is there now, the answer is NOTHING */
#define END 4                   /* a producer has no more items */
#define ROOM 8                  /* items */
#define PRODUCERS 2
#define NOTHING 1
#define ENDED 2                 /* no item is there, and none will come */

/* The judge. */
#define REPORT 1                /* p[0] how many items, p[1] their sum, p[2] steps of the consumer by TIMES */

/* The board, in slot 0 of the race's machine. Its count is in a window that is open to the adders. */
#define BOARD_SLOT 0
#define LOCK 1                  /* answered when no other adder has the lock */
#define UNLOCK 2
#define DONE 3                  /* an adder has made its additions */
#define WHERE 4                 /* p[0] the address of the count, p[1] the endpoint of who asks */
#define ADDERS 3
#define ADDITIONS 3             /* of each adder */
