/* A board played under the shim of docs/BOARD.md: interrupts that come during calls and between them, tasks that wait, a store that
   damages the state. What the page says of the shim is looked at here, and what it says of boards without it. */
#include "board.h"
#include "played.h"
#include "same.h"

/* ---- other interrupts */
static void release_interrupt(void)
{
    ask(GRITGARLAND_I, GRITGARLAND_TASK_IRELEASE_WAIT, RELAY_TASK, 0, 0, 0);
}

static void looks_too_early(void)
{
    expect(kernel.tasks[RELAY_TASK].wait.kind == 2 && gritgarland_wait_code(kernel.tasks[RELAY_TASK].code) == 0, "a wait that lasts looks like one that was served");
}

static void tick_in_start_up(void)
{
    expect(started && current == RELAY_TASK && kernel.tasks[SCREEN_TASK].active == 1, "an interrupt comes into start-up");
    timer_interrupt();
}

static void wild_store(void)
{
    kernel.tasks[SCREEN_TASK].wakeups = 7;
}

/* ---- a firing: every way in which a wait ends */
static void relay_task(void)
{
    static happening *const two_ticks[] = {timer_interrupt, looks_too_early, timer_interrupt, NULL};
    static happening *const a_key[] = {timer_interrupt, key_interrupt, NULL};
    static happening *const the_door[] = {timer_interrupt, door_interrupt, NULL};
    static happening *const a_release[] = {release_interrupt, NULL};
    uint32_t bits = 99;
    relays = true;
    expect(current == RELAY_TASK && switches == 1 && kernel.tasks[SCREEN_TASK].active == 1, "the relay task begins when all is created");
    to_come = two_ticks;
    expect(acquire(KEY, 2) == GRITGARLAND_TIMEOUT, "no key for two ticks");
    to_come = a_key;
    expect(acquire(KEY, GRITGARLAND_ENDLESS) == GRITGARLAND_NO_ERR && *to_come == NULL, "a key ends an endless wait");
    to_come = the_door;
    expect(wait_for(DOOR, DOOR_SHUT, GRITGARLAND_OR, 5, &bits) == GRITGARLAND_NO_ERR && bits == DOOR_SHUT, "the door's bits stand in the record");
    bits = 99;
    expect(wait_for(DOOR, DOOR_SHUT, GRITGARLAND_OR, 5, &bits) == GRITGARLAND_NO_ERR && bits == DOOR_SHUT, "the door's bits come at once");
    to_come = a_release;
    expect(acquire(KEY, 5) == GRITGARLAND_RELEASED, "a wait that is released");
    expect(acquire(KEY, 0) == GRITGARLAND_WRONG_PARAM, "a wait that does not begin");
    expect(masked == 0, "the relay task runs without a mask");

    uint32_t time = kernel.numbers.time, before = delivered;
    during = timer_interrupt;
    expect(ask(GRITGARLAND_T, GRITGARLAND_SEM_POLLING, KEY, 0, 0, 0).code == GRITGARLAND_TIMEOUT, "a poll, and a tick in the middle of it");
    expect(delivered == before + 1 && kernel.numbers.time == time + 1, "the tick comes after the poll");
}

static void screen_task(void)
{
    expect(relays, "the relays are on while the screen runs");
    ask(GRITGARLAND_T, GRITGARLAND_TASK_SLEEP, GRITGARLAND_ENDLESS, 0, 0, 0);
}

static void firing(void)
{
    power_on();
    bodies[RELAY_TASK] = relay_task;
    during = tick_in_start_up;
    expect(start() && started && !stopped && delivered > 0 && masked == 0, "start-up");
    expect(switches >= 8 && gritgarland_is_sound(kernel), "tasks came and went");

    static happening *const ticks[] = {timer_interrupt, timer_interrupt, NULL};
    power_on();
    expect(start() && current == RELAY_TASK, "once more");
    relays = true;
    bodies[SCREEN_TASK] = screen_task;
    to_come = ticks;
    acquire(KEY, GRITGARLAND_ENDLESS); /* the play ends in this wait */
    expect(current == 0 && relays && !stopped && kernel.numbers.time == 2, "all wait: the board idles with the relays as they are");
}

/* ---- the ticks since a task became ready: its own as it comes to run, and another's that does not */
static uint32_t screen_was_late;

static void late_screen_task(void)
{
    screen_was_late = ticks_late();
    ask(GRITGARLAND_T, GRITGARLAND_TASK_SLEEP, GRITGARLAND_ENDLESS, 0, 0, 0);
}

static void asks_in_an_interrupt(void)
{
    gritgarland_report r = ask(GRITGARLAND_I, GRITGARLAND_READY_TICKS, SCREEN_TASK, 0, 0, 0);
    expect(r.code == GRITGARLAND_WCONTEXT && r.value == 0, "an interrupt gets no ticks");
}

static void readiness(void)
{
    static happening *const two_ticks[] = {timer_interrupt, asks_in_an_interrupt, timer_interrupt, NULL};
    power_on();
    kernel.numbers.time = UINT32_MAX - 2; /* the time wraps on the way */
    expect(start() && current == RELAY_TASK && ticks_late() == 0, "start-up at another time");
    for (int i = 0; i < 3; i++)
        deliver(timer_interrupt);
    expect(!is_stuck(SCREEN_TASK, 3), "the screen is ready for three ticks");
    deliver(timer_interrupt);
    expect(is_stuck(SCREEN_TASK, 3) && ticks_late() == 4 && kernel.numbers.time == 1, "and for a fourth");
    bodies[SCREEN_TASK] = late_screen_task;
    to_come = two_ticks;
    expect(acquire(KEY, 2) == GRITGARLAND_TIMEOUT && screen_was_late == 4, "the screen comes to run four ticks late");
    expect(ticks_late() == 0, "the relay at once");
    expect(!is_stuck(SCREEN_TASK, 0) && kernel.tasks[SCREEN_TASK].wait.kind == 1, "who sleeps is not stuck");
    expect(!is_stuck(SCREEN_TASK + 1, 0) && !is_stuck(GRITGARLAND_TASKS + 1, 0) && !is_stuck(UINT32_MAX, 0), "nor is who is not there");
    ask(GRITGARLAND_T, GRITGARLAND_TASK_SUSPEND, SCREEN_TASK, 0, 0, 0);
    ask(GRITGARLAND_T, GRITGARLAND_TASK_WAKEUP, SCREEN_TASK, 0, 0, 0);
    expect(!is_stuck(SCREEN_TASK, 0) && kernel.tasks[SCREEN_TASK].wait.kind == 0, "nor who is suspended");
    ask(GRITGARLAND_T, GRITGARLAND_TASK_RESUME, SCREEN_TASK, 0, 0, 0);
    deliver(timer_interrupt);
    expect(is_stuck(SCREEN_TASK, 0) && !is_stuck(SCREEN_TASK, 1), "resumed, it counts anew");
}

/* ---- messages: temperatures come to the relay task in their order, and a full queue keeps no more */
static void probe(void)
{
    probe_interrupt(kernel.numbers.time); /* so that each is another */
}

static void messages(void)
{
    static happening *const measured[] = {timer_interrupt, timer_interrupt, probe, timer_interrupt, NULL};
    static happening *const two_ticks[] = {timer_interrupt, timer_interrupt, NULL};
    uint32_t element = 99;
    power_on();
    expect(start() && send_to(TEMPERATURES, 0, 5) == GRITGARLAND_NO_ERR && send_to(TEMPERATURES, 7, 5) == GRITGARLAND_NO_ERR, "two are stored");
    to_come = two_ticks;
    deliver(probe);
    expect(send_to(TEMPERATURES, 8, 2) == GRITGARLAND_TIMEOUT && kernel.numbers.taken[TEMPERATURES] == 2, "and no third, from whomever");
    expect(receive_from(TEMPERATURES, 5, &element) == GRITGARLAND_NO_ERR && element == 0, "the oldest, which is 0, at once");
    expect(receive_from(TEMPERATURES, 5, &element) == GRITGARLAND_NO_ERR && element == 7, "and the other");
    to_come = measured;
    expect(receive_from(TEMPERATURES, 5, &element) == GRITGARLAND_NO_ERR && element == 4 && *to_come == timer_interrupt, "one that ends a wait");
    to_come = two_ticks;
    expect(receive_from(TEMPERATURES, 2, &element) == GRITGARLAND_TIMEOUT && element == 0, "none for two ticks");
}

/* ---- a damaged state: relays off, for good */
static void damage(void)
{
    static happening *const events[] = {timer_interrupt, wild_store, timer_interrupt, NULL};
    power_on();
    expect(start(), "start-up");
    relays = true;
    to_come = events;
    acquire(KEY, GRITGARLAND_ENDLESS);
    expect(stopped && halted && !relays && *to_come == NULL, "a tick finds the damage and stops the board");
    gritgarland_state found = kernel;
    kernel.tasks[SCREEN_TASK].wakeups = 0;
    expect(ask(GRITGARLAND_I, GRITGARLAND_TICK_INT_PROCESSING, 0, 0, 0, 0).code == GRITGARLAND_UNSOUND && kernel.numbers.time == found.numbers.time, "and it stays stopped");

    /* without the shim: whoever looks at `running` alone idles with the relays on, as if all tasks waited */
    gritgarland_report r = gritgarland_tick_int_processing(&found, GRITGARLAND_I);
    uint32_t naive = RELAY_TASK;
    relays = true;
    if (r.running != naive)
        naive = r.running;
    expect(naive == 0 && relays && r.code == GRITGARLAND_UNSOUND, "a naive switch idles with the relays on");
}

/* ---- what the page says of boards that do otherwise */
static void otherwise(void)
{
    power_on();
    expect(start(), "start-up");
    gritgarland_reply slow = gritgarland_call(kernel, GRITGARLAND_T, GRITGARLAND_SEM_SIGNAL, KEY, 0, 0, 0);
    gritgarland_tick_int_processing(&kernel, GRITGARLAND_I);
    kernel = slow.state;
    expect(kernel.numbers.time == 0, "without a mask a tick in the middle of a call is lost");

    gritgarland_state lent = kernel;
    expect(gritgarland_sem_acquire(&lent, GRITGARLAND_I, KEY, 5).code == GRITGARLAND_WCONTEXT && same(&lent, &kernel), "an interrupt that waits is refused");
    expect(gritgarland_sem_acquire(&lent, GRITGARLAND_T, KEY, 5).code == GRITGARLAND_NO_ERR, "but if it says T it takes the running task's key");
    expect(gritgarland_sem_acquire(&lent, GRITGARLAND_T, KEY, 5).code == GRITGARLAND_PENDING && lent.tasks[RELAY_TASK].wait.kind == 2, "or puts that task to wait");

    lent = gritgarland_fresh();
    expect(gritgarland_task_create(&lent, GRITGARLAND_T, SCREEN_TASK, 10, 1).running == SCREEN_TASK, "start-up ends with the first runnable task");
    expect(gritgarland_task_sleep(&lent, GRITGARLAND_T, 1).code == GRITGARLAND_PENDING && lent.tasks[SCREEN_TASK].wait.kind == 1, "a sleep of start-up code is that task's");

    lent = gritgarland_fresh();
    gritgarland_task_create(&lent, GRITGARLAND_T, RELAY_TASK, 2, 1);
    gritgarland_task_activate(&lent, GRITGARLAND_T, RELAY_TASK);
    expect(gritgarland_task_exit(&lent, GRITGARLAND_T).running == RELAY_TASK, "a task that exits with an activation counted runs again at once");

    power_on();
    gritgarland_sem_create(&kernel, GRITGARLAND_T, KEY, 0, 1);
    expect(!start() && !started && switches == 0 && !relays, "the first creation is refused: nothing runs");
    power_on();
    gritgarland_task_create(&kernel, GRITGARLAND_T, RELAY_TASK, 2, 0);
    expect(!start() && !started && switches == 0 && !relays, "the last creation is refused: nothing runs");
}

int main(void)
{
    firing();
    readiness();
    messages();
    damage();
    otherwise();
    if (failures == 0)
        printf("board.c: all as it must be\n");
    return failures != 0;
}
