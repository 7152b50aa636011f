/* Gritgarland: TNKernel's scheduling decisions as a proved library. Link with libgritgarland.a, which is for x86-64 Linux (its System V
   calling convention) and for nothing else; docs/BOARD.md says what that means for a board.
   A call takes a state and gives the next one, or alters the one that it is lent; what each call answers is in docs/SERVICES.md.

   Proved, in the archive, is what the functions declared here do. The inline functions of these headers (gritgarland_fresh, those of
   gritgarland_services.h and gritgarland_names.h) are tested and not proved.
   The library keeps nothing between two calls and has no data of its own, so calls on different states, and lists with different
   buffers, may run at once in different threads. */
#ifndef GRITGARLAND_H
#define GRITGARLAND_H

#include "gritgarland_state.h"
#include <stdbool.h>
#include <stddef.h>
#include <stdint.h>

/* The version: 10000 times its first number, 100 times its second, and its third. The second counts the landings after the base
   (docs/landings) and goes up with each; the first goes up too where callers must be built again; the third with a correction between
   two landings. What came before 1.5.0 has no such number. */
#define GRITGARLAND_VERSION 41000
#define GRITGARLAND_VERSION_STRING "4.10.0"

#ifdef __cplusplus
extern "C" {
#endif

typedef struct gritgarland_reply {
    int32_t code;     /* a GRITGARLAND_ code below */
    uint32_t running; /* the task that runs after the call; 0: none */
    uint32_t value;   /* the bits that a flag wait or poll got at once, all of them; the element that was received at once, which may be 0 too;
                         the ticks that ready_ticks gives; else 0 */
    gritgarland_state state;
} gritgarland_reply;

/* a reply without its state, which stays where it was lent */
typedef struct gritgarland_report {
    int32_t code;
    uint32_t running;
    uint32_t value;
} gritgarland_report;

/* ---- contexts: who calls. The library can't see it and believes the number. */
enum { GRITGARLAND_T = 0, /* the running task, or start-up code */ GRITGARLAND_I = 1 /* an interrupt */ };

/* ---- services, with the numbers they take as a, b, c, d; a number not taken is not looked at. Number 33 is the library's own and in no
   list: TNKernel has no call of its kind. */
enum {
    GRITGARLAND_TASK_CREATE = 1,           /* task, priority, option */
    GRITGARLAND_TASK_DELETE = 2,           /* task */
    GRITGARLAND_TASK_ACTIVATE = 3,         /* task */
    GRITGARLAND_TASK_IACTIVATE = 4,        /* task */
    GRITGARLAND_TASK_EXIT = 5,
    GRITGARLAND_TASK_TERMINATE = 6,        /* task */
    GRITGARLAND_TASK_SUSPEND = 7,          /* task */
    GRITGARLAND_TASK_RESUME = 8,           /* task */
    GRITGARLAND_TASK_SLEEP = 9,            /* timeout */
    GRITGARLAND_TASK_WAKEUP = 10,          /* task */
    GRITGARLAND_TASK_IWAKEUP = 11,         /* task */
    GRITGARLAND_TASK_RELEASE_WAIT = 12,    /* task */
    GRITGARLAND_TASK_IRELEASE_WAIT = 13,   /* task */
    GRITGARLAND_TASK_CHANGE_PRIORITY = 14, /* task, priority */
    GRITGARLAND_SYS_TSLICE_TICKS = 15,     /* level, slice */
    GRITGARLAND_TICK_INT_PROCESSING = 16,
    GRITGARLAND_SEM_CREATE = 17,           /* semaphore, start, maximum */
    GRITGARLAND_SEM_DELETE = 18,           /* semaphore */
    GRITGARLAND_SEM_SIGNAL = 19,           /* semaphore */
    GRITGARLAND_SEM_ISIGNAL = 20,          /* semaphore */
    GRITGARLAND_SEM_ACQUIRE = 21,          /* semaphore, timeout */
    GRITGARLAND_SEM_POLLING = 22,          /* semaphore */
    GRITGARLAND_SEM_IPOLLING = 23,         /* semaphore */
    GRITGARLAND_EVENT_CREATE = 24,         /* flag, attributes, start bits */
    GRITGARLAND_EVENT_DELETE = 25,         /* flag */
    GRITGARLAND_EVENT_SET = 26,            /* flag, bits */
    GRITGARLAND_EVENT_ISET = 27,           /* flag, bits */
    GRITGARLAND_EVENT_CLEAR = 28,          /* flag, bits to take out; TNKernel's own clear takes the bits to keep: complement them */
    GRITGARLAND_EVENT_ICLEAR = 29,         /* as clear */
    GRITGARLAND_EVENT_WAIT = 30,           /* flag, pattern, mode, timeout */
    GRITGARLAND_EVENT_WAIT_POLLING = 31,   /* flag, pattern, mode */
    GRITGARLAND_EVENT_IWAIT = 32,          /* flag, pattern, mode */
    GRITGARLAND_READY_TICKS = 33,          /* task: the ticks since it last entered its level, in `value` */
    GRITGARLAND_QUEUE_CREATE = 34,         /* queue, capacity */
    GRITGARLAND_QUEUE_DELETE = 35,         /* queue */
    GRITGARLAND_QUEUE_SEND = 36,           /* queue, element, timeout */
    GRITGARLAND_QUEUE_SEND_POLLING = 37,   /* queue, element */
    GRITGARLAND_QUEUE_ISEND_POLLING = 38,  /* queue, element */
    GRITGARLAND_QUEUE_RECEIVE = 39,        /* queue, timeout: the element in `value`, or in the task's record after a wait */
    GRITGARLAND_QUEUE_RECEIVE_POLLING = 40, /* queue: the element in `value` */
    GRITGARLAND_QUEUE_IRECEIVE = 41        /* queue: the element in `value` */
};

/* ---- attributes of a flag, and modes of a wait for it */
enum {
    GRITGARLAND_ATTR_NEITHER = 0,       /* any number of waiters; the bits stay */
    GRITGARLAND_ATTR_SINGLE = 1,        /* one waiter at most */
    GRITGARLAND_ATTR_SINGLE_AND_CLR = 3 /* and the bits are zeroed whenever a wait or poll is met */
};
enum { GRITGARLAND_OR = 0, /* any bit of the pattern */ GRITGARLAND_AND = 1 /* all of them */ };

/* ---- codes; a negative one refuses, and the state comes back unchanged. Look at the code before the running task: with UNSOUND that is
   0, as when nobody runs, and a board that idles then leaves its relays as they are (docs/BOARD.md). */
enum {
    GRITGARLAND_NO_ERR = 0,
    GRITGARLAND_PENDING = 1,
    GRITGARLAND_OVERFLOW = -1,
    GRITGARLAND_WCONTEXT = -2,
    GRITGARLAND_WSTATE = -3,
    GRITGARLAND_TIMEOUT = -4,
    GRITGARLAND_WRONG_PARAM = -5,
    GRITGARLAND_ILUSE = -8,
    GRITGARLAND_NOEXS = -9,
    GRITGARLAND_DLT = -10,
    GRITGARLAND_RELEASED = -11,
    GRITGARLAND_UNSOUND = -12
};

/* One call on any state. A state that breaks a rule gets GRITGARLAND_UNSOUND and task 0; a context or service number that
   names nothing gets GRITGARLAND_WRONG_PARAM. */
gritgarland_reply gritgarland_call(gritgarland_state state, uint32_t context, uint32_t service, uint32_t a, uint32_t b, uint32_t c, uint32_t d);

/* One call on the one state that the caller lends, answering as gritgarland_call does: the state becomes the next one, and with a
   negative code nothing is stored, so that every byte of it stays. It is tested at each call, as any state from outside. What can't be
   checked here and is the caller's to see to: the pointer is valid and not null, and no thread and no interrupt touches that state
   during the call. */
gritgarland_report gritgarland_call_in_place(gritgarland_state *state, uint32_t context, uint32_t service, uint32_t a, uint32_t b, uint32_t c, uint32_t d);

/* Does a state keep every rule of a sound state? */
bool gritgarland_is_sound(gritgarland_state state);

/* The wait code that a task's record keeps without its sign, as the number with its sign: 0, -4, -10 or -11 of 0, 4, 10 or 11.
   How a wait that began with PENDING ended: gritgarland_wait_code(state.tasks[t].code), once task t runs again. While it lasts that is
   0, which looks like success. */
int32_t gritgarland_wait_code(uint8_t kept);

/* ---- lists of calls */
enum {
    GRITGARLAND_FILE_MOST = 65536,   /* bytes of a file */
    GRITGARLAND_ANSWER_MOST = 42576  /* bytes of the longest answer to any file: proved, and reached */
};

/* A list has the header `ctx,service,a,b,c`, or `ctx,service,a,b,c,d` and a sixth field on every line; tn_event_wait needs the
   second. In a timeout of a list the word `forever` is GRITGARLAND_ENDLESS. A list written for TNKernel itself must complement the
   patterns of its clears.
   Runs the list of calls in `file` from the fresh state and writes the answer. Returns the bytes written; or, with no byte of
   `answer` changed: -1, the file is too long; -(10 + line), the first line that can't be read, the header being line 1;
   -2, the answer does not fit. Bytes beyond those written stay.
   What can't be checked here and is the caller's to see to: the two buffers do not overlap, each has as many bytes as is said,
   and a null pointer comes only with length 0. */
int64_t gritgarland_run_list(const uint8_t *file, size_t file_length, uint8_t *answer, size_t answer_length);

/* The same by the name that it had first. A program with a run_list of its own defines GRITGARLAND_NO_RUN_LIST before it includes this
   header, and links the archive that tools/install installs: there a caller's own function goes before this one. */
#ifndef GRITGARLAND_NO_RUN_LIST
int64_t run_list(const uint8_t *file, size_t file_length, uint8_t *answer, size_t answer_length);
#endif

#ifdef __cplusplus
}
#endif

#include "gritgarland_names.h"
#include "gritgarland_services.h"

#endif
