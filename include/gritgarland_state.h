/* The state that the calls of gritgarland.h go from and to: plain unsigned numbers in fixed tables, so that any bytes are a state.
   A state of zeros is the fresh one, with nothing created.

   Tasks, levels, semaphores, flags and data queues are counted from 1. Place 0 of every table (tasks[0], levels[0], waits[0] and number 0
   of each array in numbers, elements[0] with all its places) is unused and must be zero, else the state is unsound and every call on it
   is refused. So it is with each spare byte. A queue's places are counted from 0, and so are those for the elements of a data queue. */
#ifndef GRITGARLAND_STATE_H
#define GRITGARLAND_STATE_H

#include <stdint.h>

/* The layout changed with version 4.10.0, as the first table says; what was built against an earlier one must be built again.
     was, in version 3.7.0                           is
     waits[21]                                       waits[29]: rows 21 to 28 are those of data queues 1 to 8
     numbers.time, the last number                   the same, and behind it capacities, taken, elements
     a state 2352 bytes, a reply 2364                3192, 3204
   Whoever has kept a state of before copies each of its tables to where it stands now, and leaves the rest zero: no data queue is created.
   The layout had changed with version 3.7.0:
     was, in version 2.6.0                           is
     no such field                                   tasks[t].entered, the last field of a task's record
     a task 28 bytes, a state 2252, a reply 2264     32, 2352, 2364 in version 3.7.0
   Whoever has kept a state of before sets entered to 0 in every task; ready_ticks then counts from time 0 until the task's next entry.
   The layout had changed with version 2.6.0:
     was, in version 1.5.0                           is
     numbers.charges[l], of a level                  tasks[t].charge, of a task: a field of its record, behind handed
     a task 24 bytes, a state 2276, a reply 2288     28, 2252, 2264 in version 2.6.0
   Whoever has kept a state of then gives the charge of level l to the level's first task, levels[l].places[0]; without one it is gone.
   The layout had changed before version 1.5.0 too:
     was                                             is
     tasks[t].wait                                   tasks[t].wait.kind
     tasks[t].object, .mode, .remaining, .pattern    the same in tasks[t].wait; the fields of a task stand in another order
     levels[l][i], waits[r][i]                       levels[l].places[i], waits[r].places[i]
     slices, counts, maxima, attributes, bits, time: the same in numbers, all of 32 bits
       16, 16, 16, 8, 32, 32 bits
     a task 24 bytes, a state 2076, a reply 2088     24, 2276, 2288 in version 1.5.0
   Since version 1.5.0 two bytes of a task's record that were padding have a name, spare, and must be zero. */

enum {
    GRITGARLAND_TASKS = 24,
    GRITGARLAND_LEVELS = 30,
    GRITGARLAND_SEMAPHORES = 12,
    GRITGARLAND_FLAGS = 8,
    GRITGARLAND_QUEUES = 8,         /* data queues */
    GRITGARLAND_CAPACITY_MOST = 16, /* elements of each */
    GRITGARLAND_PLACES = 24         /* of each queue of tasks */
};

#define GRITGARLAND_ENDLESS UINT32_C(4294967295) /* the timeout that never ends */

/* what a task waits for; all zeros: nothing */
typedef struct gritgarland_wait {
    uint8_t kind;       /* 0 for nothing, 1 a sleep, 2 a semaphore, 3 an event flag, 4 to send to a data queue, 5 to receive from one */
    uint8_t object;     /* the semaphore, flag or data queue that is waited on, else 0 */
    uint8_t mode;       /* of a flag wait: 0 any bit of its pattern, 1 all; else 0 */
    uint8_t spare;      /* 0 */
    uint32_t remaining; /* ticks until the timeout */
    uint32_t pattern;   /* the bits that a flag wait asks for, or the element that waits to be sent; else 0 */
} gritgarland_wait;

typedef struct gritgarland_task {
    uint8_t base;        /* the priority at creation; 0: not created */
    uint8_t priority;    /* the current one */
    uint8_t active;      /* 0: dormant, or not created */
    uint8_t suspended;   /* 1: suspended */
    uint8_t wakeups;     /* wakeup count */
    uint8_t activations; /* activation count */
    uint8_t code;        /* wait code without its sign: 0, 4, 10 or 11; 0 while a wait lasts */
    uint8_t spare;       /* 0 */
    gritgarland_wait wait;
    uint32_t handed;     /* the bits or the element that the last wait handed over; 0 during any wait */
    uint32_t charge;     /* ticks of its slice that it has used: below the slice of its level; 0 unless it is the first of the level */
    uint32_t entered;    /* the time at which it last entered its level, kept while it waits or is suspended; 0 while dormant */
} gritgarland_task;

/* a queue of tasks; a data queue's numbers are below */
typedef struct gritgarland_queue {
    uint8_t places[24]; /* task numbers, first to last, then zeros */
} gritgarland_queue;

/* all that is no record and no queue */
typedef struct gritgarland_numbers {
    uint32_t slices[31];      /* of each level, in ticks; 0: none */
    uint32_t counts[13];
    uint32_t maxima[13];      /* 0: the semaphore is not created */
    uint32_t attributes[9];   /* a GRITGARLAND_ATTR_ number plus 1; 0: the flag is not created */
    uint32_t bits[9];
    uint32_t time;
    uint32_t capacities[9];   /* the capacity plus 1; 0: the data queue is not created */
    uint32_t taken[9];        /* how many elements it has stored */
    uint32_t elements[9][16]; /* these, the oldest first, then zeros; an element may be 0, so `taken` says how many there are */
} gritgarland_numbers;

typedef struct gritgarland_state {
    gritgarland_task tasks[25];
    gritgarland_queue levels[31]; /* the runnable tasks of each level */
    gritgarland_queue waits[29];  /* the tasks that wait: 1 to 12 on each semaphore, 13 to 20 on flags 1 to 8, 21 to 28 on data queues 1 to 8 */
    gritgarland_numbers numbers;
} gritgarland_state;

/* A compiler that lays a state out otherwise than the library refuses this line. */
typedef char gritgarland_layout_of_the_library[sizeof(gritgarland_task) == 32 && sizeof(gritgarland_state) == 3192 ? 1 : -1];

/* The fresh state. A static state without an initializer is fresh too. */
static inline gritgarland_state gritgarland_fresh(void)
{
#ifdef __cplusplus
    return gritgarland_state();
#else
    gritgarland_state zeros = {0};
    return zeros;
#endif
}

#endif
