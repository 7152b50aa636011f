/* The playback box on its one state, by the entry in place: relay task at priority 2, reading at 3, screen and library at 10
   with slice 5, one semaphore per signal. Keys and sensors are interrupt releases, a wait is the running task's endless acquire.
   Every answer is looked at, and a refusal leaves every field of the state. */
#include "gritgarland.h"
#include "libc.h"
#include "same.h"

enum { NOBODY = 0, RELAY = 1, READING = 2, SCREEN = 3, LIBRARY = 4 };
enum { START_KEY = 1, SENSOR = 2, PAGE_KEY = 3, OPEN_KEY = 4, SIGNALS = 4 };
enum { SHARED_LEVEL = 10, SLICE = 5 };

static int failures;
static gritgarland_state box;
static gritgarland_state before; /* as the last answer left it */

static void expect(int holds, const char *what)
{
    if (!holds) {
        printf("box.c: %s\n", what);
        failures++;
    }
}

static void answers(gritgarland_report r, int32_t code, uint32_t running, const char *what)
{
    expect(r.code == code, what);
    expect(r.running == running, what);
    expect(r.value == 0, what);
    expect(code >= 0 || same(&before, &box), what);
    before = box;
}

/* ---- the inputs */
static gritgarland_report comes(uint32_t which)
{
    return gritgarland_sem_isignal(&box, GRITGARLAND_I, which);
}

static gritgarland_report waits_for(uint32_t which)
{
    return gritgarland_sem_acquire(&box, GRITGARLAND_T, which, GRITGARLAND_ENDLESS);
}

static gritgarland_report tick(void)
{
    return gritgarland_tick_int_processing(&box, GRITGARLAND_I);
}

static void ticks(int n, uint32_t running, const char *what)
{
    for (int i = 0; i < n; i++)
        answers(tick(), GRITGARLAND_NO_ERR, running, what);
}

/* ---- the play */
static void set_up(void)
{
    for (uint32_t signal = 1; signal <= SIGNALS; signal++)
        answers(gritgarland_sem_create(&box, GRITGARLAND_T, signal, 0, 1), GRITGARLAND_NO_ERR, NOBODY, "a signal's semaphore");
    answers(gritgarland_sys_tslice_ticks(&box, GRITGARLAND_T, SHARED_LEVEL, SLICE), GRITGARLAND_NO_ERR, NOBODY, "the slice of screen and library");
    answers(gritgarland_task_create(&box, GRITGARLAND_T, SCREEN, SHARED_LEVEL, 1), GRITGARLAND_NO_ERR, SCREEN, "the screen task");
    answers(gritgarland_task_create(&box, GRITGARLAND_T, LIBRARY, SHARED_LEVEL, 1), GRITGARLAND_NO_ERR, SCREEN, "the library task");
    answers(gritgarland_task_create(&box, GRITGARLAND_T, READING, 3, 1), GRITGARLAND_NO_ERR, READING, "the reading task");
    answers(gritgarland_task_create(&box, GRITGARLAND_T, RELAY, 2, 1), GRITGARLAND_NO_ERR, RELAY, "the relay task");
    expect(box.levels[2].places[0] == RELAY && box.levels[3].places[0] == READING, "relay and reading are ready");
    expect(box.levels[10].places[0] == SCREEN && box.levels[10].places[1] == LIBRARY && box.levels[10].places[2] == 0, "screen and library are ready");
}

static void waits_and_turns(void)
{
    answers(waits_for(START_KEY), GRITGARLAND_PENDING, READING, "the relay waits for the start key");
    answers(waits_for(SENSOR), GRITGARLAND_PENDING, SCREEN, "the reading waits for the sensor");
    expect(box.waits[START_KEY].places[0] == RELAY && box.tasks[RELAY].wait.remaining == GRITGARLAND_ENDLESS, "an endless wait");
    ticks(SLICE - 1, SCREEN, "the screen's slice");
    ticks(1, LIBRARY, "the library's turn comes with the fifth tick");
    ticks(SLICE - 1, LIBRARY, "the library's slice");
    ticks(1, SCREEN, "and the screen's again");
    expect(box.numbers.time == 2 * SLICE, "ten ticks");
}

static void keys_and_sensors(void)
{
    ticks(2, SCREEN, "two ticks of the screen's slice");
    answers(comes(SENSOR), GRITGARLAND_NO_ERR, READING, "a sensor takes the screen's place at once");
    ticks(7, READING, "the reading runs as long as it likes");
    answers(comes(START_KEY), GRITGARLAND_NO_ERR, RELAY, "a key goes before the reading");
    answers(comes(START_KEY), GRITGARLAND_NO_ERR, RELAY, "a second press is kept");
    answers(comes(START_KEY), GRITGARLAND_OVERFLOW, RELAY, "a third is refused");
    expect(box.numbers.counts[START_KEY] == 1, "one press is kept");
    answers(waits_for(START_KEY), GRITGARLAND_NO_ERR, RELAY, "the relay has the second press at once");
    answers(waits_for(START_KEY), GRITGARLAND_PENDING, READING, "and waits for the next");
    answers(waits_for(SENSOR), GRITGARLAND_PENDING, SCREEN, "the screen is first of its level still");
    expect(box.tasks[SCREEN].charge == 2 && box.tasks[LIBRARY].charge == 0, "and has its two ticks");
    ticks(SLICE - 3, SCREEN, "the rest of the screen's slice");
    ticks(1, LIBRARY, "the library's turn");
}

static void alone_and_nobody(void)
{
    answers(waits_for(OPEN_KEY), GRITGARLAND_PENDING, SCREEN, "the library waits");
    ticks(2 * SLICE, SCREEN, "the screen has the level to itself");
    answers(waits_for(PAGE_KEY), GRITGARLAND_PENDING, NOBODY, "all four wait");
    answers(waits_for(PAGE_KEY), GRITGARLAND_WCONTEXT, NOBODY, "nobody can wait");
    ticks(3, NOBODY, "no endless wait ends by itself");
    answers(comes(OPEN_KEY), GRITGARLAND_NO_ERR, LIBRARY, "a key for the library");
    answers(comes(PAGE_KEY), GRITGARLAND_NO_ERR, LIBRARY, "the screen goes last in its level");
    ticks(SLICE - 1, LIBRARY, "the library's slice once more");
    ticks(1, SCREEN, "and the screen's turn");
}

/* Whoever waits in the middle of its slice takes nothing of the next one's. */
static void a_whole_slice(void)
{
    ticks(2, SCREEN, "two ticks of the screen's slice");
    answers(waits_for(PAGE_KEY), GRITGARLAND_PENDING, LIBRARY, "the screen waits in the middle of it");
    expect(box.tasks[SCREEN].charge == 0 && box.tasks[LIBRARY].charge == 0, "and its two ticks are gone");
    answers(comes(PAGE_KEY), GRITGARLAND_NO_ERR, LIBRARY, "the screen comes back, last");
    ticks(SLICE - 1, LIBRARY, "the library has a whole slice");
    ticks(1, SCREEN, "before the screen's turn");
    ticks(SLICE - 1, SCREEN, "and so has the screen");
    ticks(1, LIBRARY, "before the library's");
    answers(waits_for(OPEN_KEY), GRITGARLAND_PENDING, SCREEN, "the library waits at once");
    answers(comes(OPEN_KEY), GRITGARLAND_NO_ERR, SCREEN, "and comes back behind the screen");
}

static void refusals(void)
{
    answers(comes(0), GRITGARLAND_WRONG_PARAM, SCREEN, "signal 0");
    answers(comes(SIGNALS + 1), GRITGARLAND_NOEXS, SCREEN, "a signal without a semaphore");
    answers(gritgarland_sem_isignal(&box, GRITGARLAND_T, SENSOR), GRITGARLAND_WCONTEXT, SCREEN, "a sensor that a task plays");
    answers(gritgarland_sem_acquire(&box, GRITGARLAND_I, SENSOR, GRITGARLAND_ENDLESS), GRITGARLAND_WCONTEXT, SCREEN, "a wait from an interrupt");
    answers(gritgarland_sem_acquire(&box, GRITGARLAND_T, SENSOR, 0), GRITGARLAND_WRONG_PARAM, SCREEN, "a wait of 0 ticks");
    answers(gritgarland_tick_int_processing(&box, GRITGARLAND_T), GRITGARLAND_WCONTEXT, SCREEN, "a tick that a task plays");
    answers(gritgarland_call_in_place(&box, 2, GRITGARLAND_SEM_ISIGNAL, SENSOR, 0, 0, 0), GRITGARLAND_WRONG_PARAM, SCREEN, "a context that names nothing");
    answers(gritgarland_call_in_place(&box, GRITGARLAND_I, 42, SENSOR, 0, 0, 0), GRITGARLAND_WRONG_PARAM, SCREEN, "a service that names nothing");
}

/* A charge never stands at the slice, and nobody but the first of a level has one. A state in which it is otherwise is answered, but not
   altered. */
static void unsound_by(uint32_t task, uint32_t charge)
{
    uint32_t kept = box.tasks[task].charge;
    box.tasks[task].charge = charge;
    before = box;
    answers(tick(), GRITGARLAND_UNSOUND, NOBODY, "a tick on an unsound state");
    answers(comes(SENSOR), GRITGARLAND_UNSOUND, NOBODY, "a sensor on an unsound state");
    answers(waits_for(PAGE_KEY), GRITGARLAND_UNSOUND, NOBODY, "a wait on an unsound state");
    answers(gritgarland_call_in_place(&box, 2, 34, 0, 0, 0, 0), GRITGARLAND_UNSOUND, NOBODY, "before unknown numbers");
    box.tasks[task].charge = kept;
    before = box;
}

static void unsound(void)
{
    expect(box.levels[SHARED_LEVEL].places[0] == SCREEN && box.levels[SHARED_LEVEL].places[1] == LIBRARY, "screen before library");
    unsound_by(SCREEN, SLICE);
    unsound_by(LIBRARY, 1);
    unsound_by(READING, 1);
    box.tasks[SCREEN].charge = SLICE - 1;
    answers(comes(SENSOR), GRITGARLAND_NO_ERR, READING, "mended, the box goes on");
    answers(waits_for(SENSOR), GRITGARLAND_PENDING, SCREEN, "and back to the screen");
    ticks(1, LIBRARY, "whose slice ends with this tick");
}

int main(void)
{
    set_up();
    waits_and_turns();
    keys_and_sensors();
    alone_and_nobody();
    a_whole_slice();
    refusals();
    unsound();
    if (failures == 0)
        printf("box.c: all as it must be\n");
    return failures != 0;
}
