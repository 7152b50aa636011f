/* For how many ticks has a task been ready: each way of entering a level marks its time, leaving one keeps the mark, and the service gives
   the ticks since, over the wrap too. It alters no byte of the state, and refuses as wakeup does, but for the count. */
#include "gritgarland.h"
#include "libc.h"
#include "same.h"

static int failures;
static gritgarland_state s;

static void expect(int holds, const char *what)
{
    if (!holds) {
        printf("ready.c: %s\n", what);
        failures++;
    }
}

/* The service by its function, and by value: code, ticks, who runs, and every byte of the state as it was. */
static void asks(uint32_t context, uint32_t task, int32_t code, uint32_t ticks, const char *what)
{
    gritgarland_state before = s;
    gritgarland_report r = gritgarland_ready_ticks(&s, context, task);
    gritgarland_reply q = gritgarland_call(before, context, GRITGARLAND_READY_TICKS, task, 7, 7, 7);
    expect(r.code == code && r.value == ticks, what);
    expect(q.code == code && q.value == ticks && q.running == r.running, what);
    expect(same(&s, &before) && same(&q.state, &before), what);
}

static void is_ready_for(uint32_t task, uint32_t ticks, const char *what)
{
    asks(GRITGARLAND_T, task, GRITGARLAND_NO_ERR, ticks, what);
}

static void tick(int n)
{
    while (n-- > 0)
        expect(gritgarland_tick_int_processing(&s, GRITGARLAND_I).code == GRITGARLAND_NO_ERR, "a tick");
}

static void done(gritgarland_report r, int32_t code, uint32_t running, const char *what)
{
    expect(r.code == code && r.running == running && r.value == 0, what);
    expect(gritgarland_is_sound(s), what);
}

/* At this time: task 1 runs at level 5, 2 and 3 are ready at level 6, 4 is dormant; five ticks later. */
static void set_up(uint32_t time)
{
    s = gritgarland_fresh();
    s.numbers.time = time;
    gritgarland_sem_create(&s, GRITGARLAND_T, 1, 0, 1);
    gritgarland_event_create(&s, GRITGARLAND_T, 1, GRITGARLAND_ATTR_NEITHER, 0);
    gritgarland_queue_create(&s, GRITGARLAND_T, 1, 0);
    done(gritgarland_task_create(&s, GRITGARLAND_T, 1, 5, 1), GRITGARLAND_NO_ERR, 1, "task 1");
    is_ready_for(1, 0, "created with option 1: now");
    gritgarland_task_create(&s, GRITGARLAND_T, 2, 6, 1);
    gritgarland_task_create(&s, GRITGARLAND_T, 3, 6, 1);
    done(gritgarland_task_create(&s, GRITGARLAND_T, 4, 4, 0), GRITGARLAND_NO_ERR, 1, "task 4");
    tick(5);
    expect(s.tasks[1].entered == time && s.tasks[2].entered == time && s.tasks[4].entered == 0, "the marks");
    is_ready_for(1, 5, "five ticks after");
    is_ready_for(3, 5, "of a task that is ready too");
}

static void entries(uint32_t time)
{
    set_up(time);
    done(gritgarland_task_iactivate(&s, GRITGARLAND_I, 4), GRITGARLAND_NO_ERR, 4, "activated");
    is_ready_for(4, 0, "an activation enters");
    tick(1);
    done(gritgarland_task_activate(&s, GRITGARLAND_T, 4), GRITGARLAND_NO_ERR, 4, "counted");
    done(gritgarland_task_wakeup(&s, GRITGARLAND_T, 4), GRITGARLAND_NO_ERR, 4, "a wakeup is counted too");
    is_ready_for(4, 1, "a counted one does not");
    tick(1);
    done(gritgarland_task_exit(&s, GRITGARLAND_T), GRITGARLAND_NO_ERR, 4, "the count is used up");
    is_ready_for(4, 0, "which enters, alone in the level too");
    done(gritgarland_task_exit(&s, GRITGARLAND_T), GRITGARLAND_NO_ERR, 1, "dormant");
    expect(s.tasks[4].entered == 0, "without a mark");
    is_ready_for(1, 7, "who was preempted entered nothing");

    done(gritgarland_task_suspend(&s, GRITGARLAND_T, 1), GRITGARLAND_NO_ERR, 2, "suspended");
    tick(1);
    is_ready_for(1, 8, "the ticks of a suspended task go on");
    done(gritgarland_task_resume(&s, GRITGARLAND_T, 1), GRITGARLAND_NO_ERR, 1, "resumed");
    is_ready_for(1, 0, "a resumption enters");
    is_ready_for(2, 8, "of that task alone");

    done(gritgarland_task_change_priority(&s, GRITGARLAND_T, 2, 6), GRITGARLAND_NO_ERR, 1, "an equal priority");
    is_ready_for(2, 8, "does not enter");
    done(gritgarland_task_change_priority(&s, GRITGARLAND_T, 2, 9), GRITGARLAND_NO_ERR, 1, "another priority");
    is_ready_for(2, 0, "enters");
    tick(1);
    done(gritgarland_task_change_priority(&s, GRITGARLAND_T, 2, 0), GRITGARLAND_NO_ERR, 1, "and back");
    is_ready_for(2, 0, "does so too");
}

static void waits(uint32_t time)
{
    set_up(time);
    done(gritgarland_task_sleep(&s, GRITGARLAND_T, 2), GRITGARLAND_PENDING, 2, "asleep");
    tick(1);
    is_ready_for(1, 6, "the ticks of a sleeper go on");
    done(gritgarland_task_change_priority(&s, GRITGARLAND_T, 1, 3), GRITGARLAND_NO_ERR, 2, "its priority changes");
    is_ready_for(1, 6, "which is no entry while it sleeps");
    tick(1);
    expect(s.tasks[1].entered == s.numbers.time, "a sleep that runs out: the new time");
    is_ready_for(1, 0, "no tick since");
    done(gritgarland_sem_acquire(&s, GRITGARLAND_T, 1, GRITGARLAND_ENDLESS), GRITGARLAND_PENDING, 2, "waits");
    tick(3);
    is_ready_for(1, 3, "the ticks of a waiter go on");
    done(gritgarland_sem_isignal(&s, GRITGARLAND_I, 1), GRITGARLAND_NO_ERR, 1, "a release");
    is_ready_for(1, 0, "a wait that is served enters");
    done(gritgarland_queue_receive(&s, GRITGARLAND_T, 1, 9), GRITGARLAND_PENDING, 2, "waits for an element");
    tick(2);
    is_ready_for(1, 2, "the ticks of a receiver go on");
    done(gritgarland_queue_isend_polling(&s, GRITGARLAND_I, 1, 7), GRITGARLAND_NO_ERR, 1, "which comes");
    is_ready_for(1, 0, "a hand-over enters");
    done(gritgarland_queue_send(&s, GRITGARLAND_T, 1, 7, 1), GRITGARLAND_PENDING, 2, "waits with an element");
    tick(1);
    is_ready_for(1, 0, "and enters where its ticks run out");
    done(gritgarland_event_wait(&s, GRITGARLAND_T, 1, 1, GRITGARLAND_OR, 9), GRITGARLAND_PENDING, 2, "waits for a flag");
    done(gritgarland_task_suspend(&s, GRITGARLAND_T, 1), GRITGARLAND_NO_ERR, 2, "suspended while it waits");
    tick(4);
    done(gritgarland_event_iset(&s, GRITGARLAND_I, 1, 1), GRITGARLAND_NO_ERR, 2, "its wait ends");
    is_ready_for(1, 4, "but it enters nothing yet");
    done(gritgarland_task_resume(&s, GRITGARLAND_T, 1), GRITGARLAND_NO_ERR, 1, "resumed");
    is_ready_for(1, 0, "now it does");
}

static void turns(uint32_t time)
{
    set_up(time);
    gritgarland_sys_tslice_ticks(&s, GRITGARLAND_T, 5, 2);
    gritgarland_sys_tslice_ticks(&s, GRITGARLAND_T, 6, 2);
    tick(2);
    expect(s.tasks[1].charge == 0 && s.levels[5].places[0] == 1, "a slice of a task that is alone ends");
    is_ready_for(1, 7, "which moves nobody");
    done(gritgarland_task_exit(&s, GRITGARLAND_T), GRITGARLAND_NO_ERR, 2, "task 1 is done");
    tick(2);
    expect(s.levels[6].places[0] == 3 && s.levels[6].places[1] == 2, "the level turns");
    expect(s.tasks[2].entered == s.numbers.time, "with the new time");
    is_ready_for(2, 0, "who goes last enters");
    is_ready_for(3, 9, "who comes first does not");
}

/* as of wakeup, and no count is ever at its top */
static void refusals(void)
{
    set_up(1000);
    uint32_t none[] = {0, 25, 256 + 1, 65536 + 1, UINT32_MAX};
    for (size_t i = 0; i < sizeof none / sizeof none[0]; i++) {
        asks(GRITGARLAND_T, none[i], GRITGARLAND_WRONG_PARAM, 0, "a number that is no task's");
        asks(GRITGARLAND_I, none[i], GRITGARLAND_WRONG_PARAM, 0, "before the context");
    }
    asks(GRITGARLAND_T, 5, GRITGARLAND_NOEXS, 0, "a task that is not created");
    asks(GRITGARLAND_I, 24, GRITGARLAND_NOEXS, 0, "before the context");
    asks(GRITGARLAND_I, 1, GRITGARLAND_WCONTEXT, 0, "from an interrupt");
    asks(GRITGARLAND_T, 4, GRITGARLAND_WCONTEXT, 0, "a dormant task");
    asks(2, 1, GRITGARLAND_WRONG_PARAM, 0, "a context that names nothing");
    gritgarland_task_wakeup(&s, GRITGARLAND_T, 1);
    expect(gritgarland_task_wakeup(&s, GRITGARLAND_T, 1).code == GRITGARLAND_OVERFLOW, "a second wakeup");
    is_ready_for(1, 5, "the ticks are given beside a count at its top");
    done(gritgarland_task_terminate(&s, GRITGARLAND_T, 2), GRITGARLAND_NO_ERR, 1, "terminated");
    asks(GRITGARLAND_T, 2, GRITGARLAND_WCONTEXT, 0, "dormant, so it is refused");
    expect(s.tasks[2].entered == 0, "and has no mark");
    for (uint32_t task = 1; task <= 3; task += 2)
        done(gritgarland_task_suspend(&s, GRITGARLAND_T, task), GRITGARLAND_NO_ERR, task == 1 ? 3 : 0, "suspended");
    is_ready_for(3, 5, "nobody needs to run");
}

/* a mark that no sound state has: of a dormant task, and of one not created; any other task may have any */
static void soundness(void)
{
    static const uint32_t marks[] = {1, 256, 65536, UINT32_MAX};
    for (size_t i = 0; i < sizeof marks / sizeof marks[0]; i++)
        for (uint32_t task = 0; task <= 5; task++) {
            set_up(1000);
            s.tasks[task].entered = marks[i];
            int sound = task >= 1 && task <= 3;
            expect(gritgarland_is_sound(s) == sound, "a mark, and whether the state is sound");
            if (sound)
                is_ready_for(task, 1005u - marks[i], "the ticks since any time");
            else
                asks(GRITGARLAND_T, 1, GRITGARLAND_UNSOUND, 0, "an unsound state");
        }
}

int main(void)
{
    static const uint32_t times[] = {0, 1, 1000, UINT32_MAX, UINT32_MAX - 1, UINT32_MAX - 5, UINT32_MAX - 8};
    for (size_t i = 0; i < sizeof times / sizeof times[0]; i++) {
        entries(times[i]);
        waits(times[i]);
        turns(times[i]);
    }
    refusals();
    soundness();
    if (failures == 0)
        printf("ready.c: all as it must be\n");
    return failures != 0;
}
