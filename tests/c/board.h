/* A shim between firmware and the library, piece by piece as docs/BOARD.md shows it: one state, interrupts masked around each call, the
   code looked at before the running task. tests/c/board.c plays the board under it; tests/board.sh holds the page to this file. */
#ifndef TESTS_BOARD_H
#define TESTS_BOARD_H

#include "gritgarland.h"

/* ---- the board's own part, which no library has */
uint32_t board_mask(void);                     /* masks interrupts, and gives the mask as it was */
void board_unmask(uint32_t before);            /* the mask as it was */
void board_switch(uint32_t from, uint32_t to); /* saves the registers of one task and loads those of the other; 0 is the idle loop.
                                                  In an interrupt: notes it, and switches as the interrupt ends. */
void board_relays_off(void);
void board_halt(void);                         /* does not return: the watchdog, or a person, starts the board again */

static gritgarland_state kernel; /* the one state; it is static, so it begins with zeros: the fresh state */
static uint32_t current;         /* the task whose registers are loaded; 0 in start-up code and in the idle loop */
static bool started;             /* false in start-up code, which nothing switches away from */
static bool stopped;             /* true for good once the state was found unsound */

/* ---- one call */
static gritgarland_report ask(uint32_t context, uint32_t service, uint32_t a, uint32_t b, uint32_t c, uint32_t d)
{
    gritgarland_report r = {GRITGARLAND_UNSOUND, 0, 0};
    uint32_t before = board_mask();
    if (!stopped)
        r = gritgarland_call_in_place(&kernel, context, service, a, b, c, d);
    if (r.code == GRITGARLAND_UNSOUND) { /* asked before r.running, which is 0 here and means nothing */
        stopped = true;
        board_relays_off();
        board_halt();
    } else if (started && r.running != current) {
        uint32_t from = current;
        current = r.running;
        board_switch(from, r.running); /* comes back when `from` runs again */
    }
    board_unmask(before);
    return r;
}

/* ---- start-up: everything is created before anything runs */
enum { RELAY_TASK = 1, SCREEN_TASK = 2, KEY = 1, DOOR = 1, DOOR_SHUT = 1, TEMPERATURES = 1 };

static bool start(void)
{
    uint32_t before = board_mask(); /* no interrupt until the first task runs */
    bool made = ask(GRITGARLAND_T, GRITGARLAND_SEM_CREATE, KEY, 0, 1, 0).code == GRITGARLAND_NO_ERR;
    made = ask(GRITGARLAND_T, GRITGARLAND_EVENT_CREATE, DOOR, GRITGARLAND_ATTR_NEITHER, 0, 0).code == GRITGARLAND_NO_ERR && made;
    made = ask(GRITGARLAND_T, GRITGARLAND_QUEUE_CREATE, TEMPERATURES, 2, 0, 0).code == GRITGARLAND_NO_ERR && made;
    made = ask(GRITGARLAND_T, GRITGARLAND_TASK_CREATE, SCREEN_TASK, 10, 1, 0).code == GRITGARLAND_NO_ERR && made;
    gritgarland_report r = ask(GRITGARLAND_T, GRITGARLAND_TASK_CREATE, RELAY_TASK, 2, 1, 0);
    started = made && r.code == GRITGARLAND_NO_ERR; /* else a line above is wrong: nothing runs, and the relays stay off */
    if (started) {
        current = r.running;
        board_switch(0, r.running); /* comes back when nobody runs: the caller is the idle loop from here on */
    }
    board_unmask(before);
    return started;
}

/* ---- waits: PENDING says that the wait began; how it ended is in the task's record once the task runs again */
static int32_t acquire(uint32_t semaphore, uint32_t timeout)
{
    uint32_t me = current;
    int32_t code = ask(GRITGARLAND_T, GRITGARLAND_SEM_ACQUIRE, semaphore, timeout, 0, 0).code;
    return code == GRITGARLAND_PENDING ? gritgarland_wait_code(kernel.tasks[me].code) : code;
}

static int32_t wait_for(uint32_t flag, uint32_t pattern, uint32_t mode, uint32_t timeout, uint32_t *bits)
{
    uint32_t me = current;
    gritgarland_report r = ask(GRITGARLAND_T, GRITGARLAND_EVENT_WAIT, flag, pattern, mode, timeout);
    *bits = r.code == GRITGARLAND_PENDING ? kernel.tasks[me].handed : r.value;
    return r.code == GRITGARLAND_PENDING ? gritgarland_wait_code(kernel.tasks[me].code) : r.code;
}

/* ---- messages: an element that comes at once is the report's value, one that ends a wait stands in the record; either may be 0 */
static int32_t receive_from(uint32_t queue, uint32_t timeout, uint32_t *element)
{
    uint32_t me = current;
    gritgarland_report r = ask(GRITGARLAND_T, GRITGARLAND_QUEUE_RECEIVE, queue, timeout, 0, 0);
    *element = r.code == GRITGARLAND_PENDING ? kernel.tasks[me].handed : r.value;
    return r.code == GRITGARLAND_PENDING ? gritgarland_wait_code(kernel.tasks[me].code) : r.code;
}

static int32_t send_to(uint32_t queue, uint32_t element, uint32_t timeout)
{
    uint32_t me = current;
    int32_t code = ask(GRITGARLAND_T, GRITGARLAND_QUEUE_SEND, queue, element, timeout, 0).code;
    return code == GRITGARLAND_PENDING ? gritgarland_wait_code(kernel.tasks[me].code) : code;
}

/* ---- when a task became ready: asked at once after a wait, the ticks from the wait's end until the task came to run */
static uint32_t ticks_late(void)
{
    return ask(GRITGARLAND_T, GRITGARLAND_READY_TICKS, current, 0, 0, 0).value;
}

/* and of another task: it stands in its level for more than so many ticks, and has come to no wait */
static bool is_stuck(uint32_t task, uint32_t most)
{
    uint32_t before = board_mask(); /* so that the answer and the record are of one time */
    gritgarland_report r = ask(GRITGARLAND_T, GRITGARLAND_READY_TICKS, task, 0, 0, 0);
    bool stuck = r.code == GRITGARLAND_NO_ERR && r.value > most && kernel.tasks[task].wait.kind == 0 && kernel.tasks[task].suspended == 0;
    board_unmask(before);
    return stuck;
}

/* ---- interrupts: they say I, since the library believes what it is told */
static void timer_interrupt(void)
{
    ask(GRITGARLAND_I, GRITGARLAND_TICK_INT_PROCESSING, 0, 0, 0, 0);
}

static void key_interrupt(void)
{
    ask(GRITGARLAND_I, GRITGARLAND_SEM_ISIGNAL, KEY, 0, 0, 0); /* OVERFLOW: a press is kept already */
}

static void door_interrupt(void)
{
    ask(GRITGARLAND_I, GRITGARLAND_EVENT_ISET, DOOR, DOOR_SHUT, 0, 0);
}

static void probe_interrupt(uint32_t temperature)
{
    ask(GRITGARLAND_I, GRITGARLAND_QUEUE_ISEND_POLLING, TEMPERATURES, temperature, 0, 0); /* TIMEOUT: the queue is full, and this one is lost */
}

#endif
