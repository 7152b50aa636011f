/* The kernel from C: every service by its constant, accepted at least once; refusals, an unsound state. Every field of each next
   state is looked at where the call must leave it alone. */
#include "gritgarland.h"
#include "libc.h"
#include "same.h"

_Static_assert(sizeof(gritgarland_wait) == 12 && offsetof(gritgarland_wait, spare) == 3 && offsetof(gritgarland_wait, remaining) == 4, "a wait");
_Static_assert(sizeof(gritgarland_task) == 32 && offsetof(gritgarland_task, spare) == 7 && offsetof(gritgarland_task, wait) == 8, "a task's record");
_Static_assert(offsetof(gritgarland_task, handed) == 20 && offsetof(gritgarland_task, charge) == 24 && offsetof(gritgarland_task, entered) == 28, "its last three numbers");
_Static_assert(sizeof(gritgarland_queue) == 24 && sizeof(gritgarland_numbers) == 952, "a queue, and the numbers");
_Static_assert(sizeof(gritgarland_state) == 3192 && sizeof(gritgarland_reply) == 3204, "a state");
_Static_assert(offsetof(gritgarland_state, levels) == 800 && offsetof(gritgarland_state, waits) == 1544, "the queues");
_Static_assert(offsetof(gritgarland_state, numbers) == 2240 && offsetof(gritgarland_state, numbers.time) == 2540, "the numbers");
_Static_assert(offsetof(gritgarland_numbers, slices) == 0 && offsetof(gritgarland_numbers, counts) == 124, "the levels' numbers");
_Static_assert(offsetof(gritgarland_numbers, maxima) == 176 && offsetof(gritgarland_numbers, attributes) == 228, "the semaphores' numbers");
_Static_assert(offsetof(gritgarland_numbers, bits) == 264 && offsetof(gritgarland_numbers, time) == 300, "the flags' numbers");
_Static_assert(offsetof(gritgarland_numbers, capacities) == 304 && offsetof(gritgarland_numbers, taken) == 340, "the data queues' numbers");
_Static_assert(offsetof(gritgarland_numbers, elements[1]) == 440 && offsetof(gritgarland_numbers, elements[8][15]) == 948, "their elements");

enum { SERVICES = 41 };

static int failures;
static gritgarland_state now;
static int accepted[SERVICES + 1];

static void expect(int holds, const char *what)
{
    if (!holds) {
        printf("call.c: %s\n", what);
        failures++;
    }
}

/* The call, with the code, the running task and the value it must answer; a refusal leaves every field of the state. */
static void ask4(uint32_t context, uint32_t service, uint32_t a, uint32_t b, uint32_t c, uint32_t d, int32_t code, uint32_t running, uint32_t value, const char *what)
{
    gritgarland_state before = now;
    gritgarland_reply r = gritgarland_call(now, context, service, a, b, c, d);
    now = r.state;
    expect(r.code == code, what);
    expect(r.running == running, what);
    expect(r.value == value, what);
    expect(code >= 0 || same(&before, &now), what);
    expect(gritgarland_is_sound(now), what);
    if (service <= SERVICES && code >= 0)
        accepted[service] = 1;
}

static void ask(uint32_t context, uint32_t service, uint32_t a, uint32_t b, uint32_t c, int32_t code, uint32_t running, const char *what)
{
    ask4(context, service, a, b, c, 0, code, running, 0, what);
}

/* Task 1 runs alone, at level 5. */
static void flags(void)
{
    ask(GRITGARLAND_T, GRITGARLAND_EVENT_CREATE, 1, GRITGARLAND_ATTR_SINGLE_AND_CLR, 0, GRITGARLAND_NO_ERR, 1, "create a flag");
    ask(GRITGARLAND_T, GRITGARLAND_EVENT_CREATE, 1, GRITGARLAND_ATTR_NEITHER, 0, GRITGARLAND_WRONG_PARAM, 1, "a flag that exists");
    ask(GRITGARLAND_T, GRITGARLAND_EVENT_CREATE, 2, 2, 0, GRITGARLAND_WRONG_PARAM, 1, "CLR without SINGLE");
    ask4(GRITGARLAND_T, GRITGARLAND_EVENT_WAIT, 1, 6, GRITGARLAND_AND, GRITGARLAND_ENDLESS, GRITGARLAND_PENDING, 0, 0, "task 1 waits on a flag");
    expect(now.waits[13].places[0] == 1 && now.tasks[1].wait.kind == 3 && now.tasks[1].wait.object == 1, "the queue of the flag");
    expect(now.tasks[1].wait.pattern == 6 && now.tasks[1].wait.mode == 1 && now.tasks[1].wait.remaining == GRITGARLAND_ENDLESS, "what the wait asks for");
    ask(GRITGARLAND_I, GRITGARLAND_EVENT_ISET, 1, 2, 0, GRITGARLAND_NO_ERR, 0, "a set that does not meet it");
    ask(GRITGARLAND_I, GRITGARLAND_EVENT_IWAIT, 1, 2, GRITGARLAND_OR, GRITGARLAND_ILUSE, 0, "a poll beside the waiter of SINGLE");
    expect(now.numbers.bits[1] == 2 && now.numbers.attributes[1] == 4, "the flag's numbers");
    ask(GRITGARLAND_T, GRITGARLAND_EVENT_SET, 1, 13, 0, GRITGARLAND_NO_ERR, 1, "a set that meets it");
    expect(now.tasks[1].handed == 15 && now.tasks[1].code == 0 && now.numbers.bits[1] == 0, "the bits as set are handed over, and CLR zeroes them");
    ask(GRITGARLAND_T, GRITGARLAND_EVENT_WAIT_POLLING, 1, 1, GRITGARLAND_OR, GRITGARLAND_TIMEOUT, 1, "a poll that is not met");
    ask(GRITGARLAND_T, GRITGARLAND_EVENT_SET, 1, 7, 0, GRITGARLAND_NO_ERR, 1, "a set that meets nobody");
    ask(GRITGARLAND_T, GRITGARLAND_EVENT_CLEAR, 1, 1, 0, GRITGARLAND_NO_ERR, 1, "a clear");
    ask(GRITGARLAND_I, GRITGARLAND_EVENT_ICLEAR, 1, 10, 0, GRITGARLAND_NO_ERR, 1, "a clear from an interrupt");
    expect(now.numbers.bits[1] == 4, "a clear takes its bits out");
    ask4(GRITGARLAND_T, GRITGARLAND_EVENT_WAIT, 1, 12, GRITGARLAND_OR, 1, GRITGARLAND_NO_ERR, 1, 4, "a wait that is met at once");
    expect(now.numbers.bits[1] == 0 && now.tasks[1].handed == 15, "CLR zeroes the bits, and the record stays");
    ask4(GRITGARLAND_T, GRITGARLAND_EVENT_WAIT, 1, 12, GRITGARLAND_OR, 0, GRITGARLAND_WRONG_PARAM, 1, 0, "a flag wait of 0 ticks");
    ask4(GRITGARLAND_T, GRITGARLAND_EVENT_WAIT, 1, 0, GRITGARLAND_OR, 1, GRITGARLAND_WRONG_PARAM, 1, 0, "pattern 0");
    ask4(GRITGARLAND_T, GRITGARLAND_EVENT_WAIT, 1, 1, 2, 1, GRITGARLAND_WRONG_PARAM, 1, 0, "mode 2");
    ask(GRITGARLAND_T, GRITGARLAND_EVENT_CREATE, 8, GRITGARLAND_ATTR_NEITHER, 9, GRITGARLAND_NO_ERR, 1, "a flag with start bits");
    ask4(GRITGARLAND_T, GRITGARLAND_EVENT_WAIT_POLLING, 8, 9, GRITGARLAND_AND, 0, GRITGARLAND_NO_ERR, 1, 9, "a poll that is met");
    ask4(GRITGARLAND_I, GRITGARLAND_EVENT_IWAIT, 8, 8, GRITGARLAND_OR, 0, GRITGARLAND_NO_ERR, 1, 9, "a poll from an interrupt");
    ask(GRITGARLAND_T, GRITGARLAND_EVENT_DELETE, 1, 0, 0, GRITGARLAND_NO_ERR, 1, "delete a flag");
    ask(GRITGARLAND_T, GRITGARLAND_EVENT_SET, 1, 1, 0, GRITGARLAND_NOEXS, 1, "a flag that is not created");
}

/* Task 1 runs alone, at level 5. */
static void queues(void)
{
    ask(GRITGARLAND_T, GRITGARLAND_QUEUE_CREATE, 8, 2, 0, GRITGARLAND_NO_ERR, 1, "create a data queue");
    ask(GRITGARLAND_T, GRITGARLAND_QUEUE_CREATE, 8, 2, 0, GRITGARLAND_WRONG_PARAM, 1, "a data queue that exists");
    ask(GRITGARLAND_T, GRITGARLAND_QUEUE_CREATE, 7, GRITGARLAND_CAPACITY_MOST + 1, 0, GRITGARLAND_WRONG_PARAM, 1, "a capacity of 17");
    expect(now.numbers.capacities[8] == 3 && now.numbers.taken[8] == 0, "the numbers of an empty one");
    ask(GRITGARLAND_T, GRITGARLAND_QUEUE_RECEIVE_POLLING, 8, 0, 0, GRITGARLAND_TIMEOUT, 1, "a poll of an empty queue");
    ask(GRITGARLAND_T, GRITGARLAND_QUEUE_SEND, 8, 0, 1, GRITGARLAND_NO_ERR, 1, "an element 0 is stored");
    ask(GRITGARLAND_T, GRITGARLAND_QUEUE_SEND_POLLING, 8, UINT32_MAX, 0, GRITGARLAND_NO_ERR, 1, "and the largest");
    expect(now.numbers.taken[8] == 2 && now.numbers.elements[8][0] == 0 && now.numbers.elements[8][1] == UINT32_MAX, "the oldest first");
    ask(GRITGARLAND_I, GRITGARLAND_QUEUE_ISEND_POLLING, 8, 5, 0, GRITGARLAND_TIMEOUT, 1, "a send to a full queue by an interrupt");
    ask(GRITGARLAND_T, GRITGARLAND_QUEUE_SEND_POLLING, 8, 5, 0, GRITGARLAND_TIMEOUT, 1, "and by a task");
    ask(GRITGARLAND_T, GRITGARLAND_QUEUE_SEND, 8, 5, 0, GRITGARLAND_WRONG_PARAM, 1, "a send for 0 ticks");
    ask(GRITGARLAND_T, GRITGARLAND_QUEUE_SEND, 8, 5, GRITGARLAND_ENDLESS, GRITGARLAND_PENDING, 0, "task 1 waits with its element");
    expect(now.waits[28].places[0] == 1 && now.tasks[1].wait.kind == 4 && now.tasks[1].wait.object == 8 && now.tasks[1].wait.pattern == 5, "the row of the queue");
    ask(GRITGARLAND_T, GRITGARLAND_QUEUE_SEND, 8, 6, 1, GRITGARLAND_WCONTEXT, 0, "nobody runs");
    ask4(GRITGARLAND_I, GRITGARLAND_QUEUE_IRECEIVE, 8, 0, 0, 0, GRITGARLAND_NO_ERR, 1, 0, "the element 0 is received");
    expect(now.tasks[1].code == 0 && now.tasks[1].handed == 0 && now.numbers.taken[8] == 2 && now.numbers.elements[8][1] == 5, "and the waiting one stored");
    ask4(GRITGARLAND_T, GRITGARLAND_QUEUE_RECEIVE, 8, 1, 0, 0, GRITGARLAND_NO_ERR, 1, UINT32_MAX, "the next at once");
    ask4(GRITGARLAND_T, GRITGARLAND_QUEUE_RECEIVE_POLLING, 8, 0, 0, 0, GRITGARLAND_NO_ERR, 1, 5, "and the last by a poll");
    expect(now.numbers.taken[8] == 0 && now.numbers.elements[8][0] == 0 && now.tasks[1].handed == 0, "all places are 0, and the record stays");
    ask(GRITGARLAND_T, GRITGARLAND_QUEUE_RECEIVE, 8, 9, 0, GRITGARLAND_PENDING, 0, "task 1 waits for an element");
    expect(now.waits[28].places[0] == 1 && now.tasks[1].wait.kind == 5 && now.tasks[1].wait.pattern == 0, "in the same row");
    ask(GRITGARLAND_I, GRITGARLAND_QUEUE_ISEND_POLLING, 8, 77, 0, GRITGARLAND_NO_ERR, 1, "a send hands over");
    expect(now.tasks[1].handed == 77 && now.tasks[1].code == 0 && now.numbers.taken[8] == 0, "to the record, past the places");
    ask(GRITGARLAND_T, GRITGARLAND_QUEUE_RECEIVE, 8, 9, 0, GRITGARLAND_PENDING, 0, "task 1 waits again");
    ask(GRITGARLAND_T, GRITGARLAND_QUEUE_DELETE, 8, 0, 0, GRITGARLAND_NO_ERR, 1, "delete the queue");
    expect(now.tasks[1].code == 10 && now.tasks[1].handed == 0 && now.numbers.capacities[8] == 0, "its waiter is told");
    ask(GRITGARLAND_T, GRITGARLAND_QUEUE_SEND, 8, 1, 1, GRITGARLAND_NOEXS, 1, "a data queue that is not created");
}

/* Task 1 runs, at level 5; task 2 is dormant. At the end task 2 and semaphore 1 are gone. */
static void the_others(void)
{
    ask(GRITGARLAND_T, GRITGARLAND_TASK_ACTIVATE, 2, 0, 0, GRITGARLAND_NO_ERR, 1, "activate task 2");
    ask(GRITGARLAND_T, GRITGARLAND_TASK_SUSPEND, 2, 0, 0, GRITGARLAND_NO_ERR, 1, "suspend task 2");
    ask(GRITGARLAND_T, GRITGARLAND_TASK_RESUME, 2, 0, 0, GRITGARLAND_NO_ERR, 1, "resume task 2");
    ask(GRITGARLAND_T, GRITGARLAND_SYS_TSLICE_TICKS, 5, 3, 0, GRITGARLAND_NO_ERR, 1, "a slice");
    ask(GRITGARLAND_I, GRITGARLAND_TICK_INT_PROCESSING, 0, 0, 0, GRITGARLAND_NO_ERR, 1, "a tick of it");
    ask4(GRITGARLAND_T, GRITGARLAND_READY_TICKS, 2, 0, 0, 0, GRITGARLAND_NO_ERR, 1, 1, "task 2 is ready for a tick");
    ask(GRITGARLAND_T, GRITGARLAND_TASK_CHANGE_PRIORITY, 2, 4, 0, GRITGARLAND_NO_ERR, 2, "task 2 takes over");
    ask(GRITGARLAND_T, GRITGARLAND_TASK_SLEEP, GRITGARLAND_ENDLESS, 0, 0, GRITGARLAND_PENDING, 1, "task 2 sleeps");
    ask(GRITGARLAND_T, GRITGARLAND_TASK_WAKEUP, 2, 0, 0, GRITGARLAND_NO_ERR, 2, "and is woken");
    ask(GRITGARLAND_T, GRITGARLAND_TASK_SLEEP, GRITGARLAND_ENDLESS, 0, 0, GRITGARLAND_PENDING, 1, "task 2 sleeps again");
    ask(GRITGARLAND_I, GRITGARLAND_TASK_IWAKEUP, 2, 0, 0, GRITGARLAND_NO_ERR, 2, "and is woken by an interrupt");
    ask(GRITGARLAND_T, GRITGARLAND_SEM_ACQUIRE, 1, GRITGARLAND_ENDLESS, 0, GRITGARLAND_PENDING, 1, "task 2 waits");
    ask(GRITGARLAND_T, GRITGARLAND_TASK_RELEASE_WAIT, 2, 0, 0, GRITGARLAND_NO_ERR, 2, "and is released");
    ask(GRITGARLAND_T, GRITGARLAND_SEM_ACQUIRE, 1, GRITGARLAND_ENDLESS, 0, GRITGARLAND_PENDING, 1, "task 2 waits again");
    ask(GRITGARLAND_I, GRITGARLAND_TASK_IRELEASE_WAIT, 2, 0, 0, GRITGARLAND_NO_ERR, 2, "and is released by an interrupt");
    expect(now.tasks[2].code == 11, "the code of a released wait");
    ask(GRITGARLAND_T, GRITGARLAND_TASK_CHANGE_PRIORITY, 2, 0, 0, GRITGARLAND_NO_ERR, 1, "back to the priority at creation");
    ask(GRITGARLAND_T, GRITGARLAND_TASK_TERMINATE, 2, 0, 0, GRITGARLAND_NO_ERR, 1, "terminate task 2");
    ask(GRITGARLAND_I, GRITGARLAND_TASK_IACTIVATE, 2, 0, 0, GRITGARLAND_NO_ERR, 1, "activate it by an interrupt");
    ask(GRITGARLAND_T, GRITGARLAND_TASK_DELETE, 2, 0, 0, GRITGARLAND_WCONTEXT, 1, "a task that is not dormant");
    ask(GRITGARLAND_T, GRITGARLAND_TASK_TERMINATE, 2, 0, 0, GRITGARLAND_NO_ERR, 1, "terminate it again");
    ask(GRITGARLAND_T, GRITGARLAND_TASK_DELETE, 2, 0, 0, GRITGARLAND_NO_ERR, 1, "delete it");
    ask(GRITGARLAND_I, GRITGARLAND_SEM_IPOLLING, 1, 0, 0, GRITGARLAND_TIMEOUT, 1, "a poll of an empty semaphore by an interrupt");
    ask(GRITGARLAND_T, GRITGARLAND_SEM_SIGNAL, 1, 0, 0, GRITGARLAND_NO_ERR, 1, "a release");
    ask(GRITGARLAND_I, GRITGARLAND_SEM_IPOLLING, 1, 0, 0, GRITGARLAND_NO_ERR, 1, "a poll by an interrupt takes the resource");
    ask(GRITGARLAND_T, GRITGARLAND_SEM_DELETE, 1, 0, 0, GRITGARLAND_NO_ERR, 1, "delete the semaphore");
}

/* A number that no sound state has, though its lower bits might stand there: seen, refused, and left as it is. */
static void too_large(uint32_t *number, uint32_t value, const char *what)
{
    uint32_t kept = *number;
    *number = value;
    gritgarland_state before = now;
    gritgarland_reply r = gritgarland_call(now, GRITGARLAND_I, GRITGARLAND_TICK_INT_PROCESSING, 0, 0, 0, 0);
    gritgarland_report p = gritgarland_call_in_place(&now, GRITGARLAND_I, GRITGARLAND_TICK_INT_PROCESSING, 0, 0, 0, 0);
    expect(!gritgarland_is_sound(before), what);
    expect(r.code == GRITGARLAND_UNSOUND && r.running == 0 && r.value == 0 && same(&r.state, &before), what);
    expect(p.code == GRITGARLAND_UNSOUND && p.running == 0 && p.value == 0 && same(&now, &before), what);
    *number = kept;
}

/* Task 1 runs, and flag 8 has no attributes. */
static void upper_bits(void)
{
    ask(GRITGARLAND_T, GRITGARLAND_SEM_CREATE, 12, 5, 65535, GRITGARLAND_NO_ERR, 1, "the largest maximum");
    ask(GRITGARLAND_T, GRITGARLAND_SYS_TSLICE_TICKS, 7, 1000, 0, GRITGARLAND_NO_ERR, 1, "the largest slice");
    too_large(&now.numbers.maxima[12], 65536, "a maximum of 65,536");
    too_large(&now.numbers.maxima[12], 65536 + 5, "a maximum that is 5 in 16 bits");
    too_large(&now.numbers.maxima[12], UINT32_MAX, "a maximum of 4,294,967,295");
    too_large(&now.numbers.maxima[1], 65536, "a maximum that is 0 in 16 bits");
    too_large(&now.numbers.counts[12], 65536, "a count that is 0 in 16 bits");
    too_large(&now.numbers.counts[12], UINT32_MAX, "a count of 4,294,967,295");
    too_large(&now.numbers.slices[7], 65536 + 1000, "a slice that is 1,000 in 16 bits");
    too_large(&now.numbers.slices[6], 65536, "a slice that is 0 in 16 bits");
    too_large(&now.tasks[1].charge, 65536, "a charge that is 0 in 16 bits");
    too_large(&now.tasks[1].charge, UINT32_MAX, "a charge of 4,294,967,295");
    too_large(&now.tasks[2].entered, 65536, "a time of entry that is 0 in 16 bits, of a task not created");
    too_large(&now.numbers.attributes[8], 256 + 1, "attributes that are 1 in 8 bits");
    too_large(&now.numbers.attributes[8], 65536 + 1, "attributes that are 1 in 16 bits");
    too_large(&now.numbers.attributes[1], 256, "attributes that are 0 in 8 bits");
    ask(GRITGARLAND_T, GRITGARLAND_QUEUE_CREATE, 1, 2, 0, GRITGARLAND_NO_ERR, 1, "a data queue of two places");
    too_large(&now.numbers.capacities[1], 18, "a capacity of 17");
    too_large(&now.numbers.capacities[1], 256 + 3, "a capacity that is 2 in 8 bits");
    too_large(&now.numbers.capacities[2], 256, "a capacity that is none in 8 bits");
    too_large(&now.numbers.taken[1], 3, "three elements in two places");
    too_large(&now.numbers.taken[1], 256 + 1, "a number of elements that is 1 in 8 bits");
    too_large(&now.numbers.taken[2], 1, "an element of a queue that is not created");
    too_large(&now.numbers.elements[1][0], 1, "a place past the last element");
    too_large(&now.numbers.elements[1][15], 65536, "and the last of them");
    too_large(&now.numbers.capacities[0], 1, "a capacity of queue 0");
    too_large(&now.numbers.taken[0], 1, "an element of queue 0");
    too_large(&now.numbers.elements[0][15], 1, "a place of queue 0");
    too_large(&now.numbers.slices[0], 65536, "a slice of level 0");
    too_large(&now.numbers.counts[0], 65536, "a count of semaphore 0");
    too_large(&now.numbers.attributes[0], 256, "attributes of flag 0");
    expect(gritgarland_is_sound(now), "all as it was");
}

int main(void)
{
    memset(&now, 0, sizeof now);
    expect(gritgarland_is_sound(now), "the fresh state is sound");

    ask(GRITGARLAND_T, GRITGARLAND_SEM_CREATE, 1, 0, 1, GRITGARLAND_NO_ERR, 0, "create a semaphore");
    ask(GRITGARLAND_T, GRITGARLAND_TASK_CREATE, 1, 5, 1, GRITGARLAND_NO_ERR, 1, "create task 1");
    ask(GRITGARLAND_T, GRITGARLAND_TASK_CREATE, 2, 5, 1, GRITGARLAND_NO_ERR, 1, "create task 2");
    ask(GRITGARLAND_T, GRITGARLAND_SEM_ACQUIRE, 1, 2, 0, GRITGARLAND_PENDING, 2, "task 1 waits");
    expect(now.waits[1].places[0] == 1 && now.waits[1].places[1] == 0 && now.levels[5].places[0] == 2, "the queues after the wait");
    ask(GRITGARLAND_I, GRITGARLAND_TICK_INT_PROCESSING, 0, 0, 0, GRITGARLAND_NO_ERR, 2, "a tick");
    expect(now.numbers.time == 1 && now.tasks[1].wait.remaining == 1, "the time and the timeout after a tick");
    ask(GRITGARLAND_I, GRITGARLAND_SEM_ISIGNAL, 1, 0, 0, GRITGARLAND_NO_ERR, 2, "a release wakes task 1");
    expect(now.levels[5].places[0] == 2 && now.levels[5].places[1] == 1 && now.numbers.counts[1] == 0, "the level after the release");
    ask(GRITGARLAND_T, GRITGARLAND_SEM_SIGNAL, 1, 0, 0, GRITGARLAND_NO_ERR, 2, "a release raises the count");
    ask(GRITGARLAND_T, GRITGARLAND_SEM_SIGNAL, 1, 0, 0, GRITGARLAND_OVERFLOW, 2, "a release at the maximum");
    ask(GRITGARLAND_T, GRITGARLAND_TASK_EXIT, 0, 0, 0, GRITGARLAND_NO_ERR, 1, "task 2 exits");
    ask(GRITGARLAND_T, GRITGARLAND_SEM_POLLING, 1, 0, 0, GRITGARLAND_NO_ERR, 1, "a poll takes the resource");

    ask(GRITGARLAND_T, GRITGARLAND_SEM_POLLING, 1, 0, 0, GRITGARLAND_TIMEOUT, 1, "a poll of an empty semaphore");
    ask(GRITGARLAND_T, GRITGARLAND_SEM_ACQUIRE, 2, 1, 0, GRITGARLAND_NOEXS, 1, "a semaphore that is not created");
    ask(GRITGARLAND_T, GRITGARLAND_SEM_ACQUIRE, 2, 0, 0, GRITGARLAND_WRONG_PARAM, 1, "a timeout of 0");
    ask(GRITGARLAND_T, GRITGARLAND_TICK_INT_PROCESSING, 0, 0, 0, GRITGARLAND_WCONTEXT, 1, "a tick from a task");
    ask(GRITGARLAND_T, GRITGARLAND_TASK_RESUME, 1, 0, 0, GRITGARLAND_WSTATE, 1, "a task that is not suspended");
    ask(2, GRITGARLAND_TASK_EXIT, 0, 0, 0, GRITGARLAND_WRONG_PARAM, 1, "a context that names nothing");
    ask(GRITGARLAND_T, 0, 0, 0, 0, GRITGARLAND_WRONG_PARAM, 1, "service 0");
    ask(GRITGARLAND_T, SERVICES + 1, 0, 0, 0, GRITGARLAND_WRONG_PARAM, 1, "service 42");

    ask(GRITGARLAND_T, GRITGARLAND_TASK_SLEEP, 65535, 0, 0, GRITGARLAND_PENDING, 0, "a sleep of 65,535");
    for (uint32_t i = 1; i < 65535; i++)
        now = gritgarland_call(now, GRITGARLAND_I, GRITGARLAND_TICK_INT_PROCESSING, 0, 0, 0, 0).state;
    expect(now.tasks[1].wait.remaining == 1, "65,535 is finite");
    ask(GRITGARLAND_I, GRITGARLAND_TICK_INT_PROCESSING, 0, 0, 0, GRITGARLAND_NO_ERR, 1, "and ends at tick 65,535");

    the_others();
    flags();
    queues();
    for (int service = 1; service <= SERVICES; service++)
        expect(accepted[service], "a service that no call named");

    upper_bits();
    gritgarland_state broken = now;
    broken.numbers.attributes[8] = 3;
    expect(!gritgarland_is_sound(broken), "CLR without SINGLE is not sound");
    broken = now;
    broken.tasks[1].wakeups = 2;
    gritgarland_reply r = gritgarland_call(broken, GRITGARLAND_T, GRITGARLAND_TASK_EXIT, 0, 0, 0, 0);
    expect(!gritgarland_is_sound(broken), "two wakeups are not sound");
    expect(r.code == GRITGARLAND_UNSOUND && r.running == 0 && r.value == 0, "an unsound state is refused");
    expect(same(&r.state, &broken), "an unsound state comes back as it was");
    r = gritgarland_call(broken, 7, 99, 0, 0, 0, 0);
    expect(r.code == GRITGARLAND_UNSOUND && r.running == 0 && r.value == 0, "before an unknown service");
    memset(&broken, 255, sizeof broken);
    r = gritgarland_call(broken, GRITGARLAND_I, GRITGARLAND_TICK_INT_PROCESSING, 0, 0, 0, 0);
    expect(r.code == GRITGARLAND_UNSOUND && same(&r.state, &broken), "garbage is refused");

    if (failures == 0)
        printf("call.c: all as it must be\n");
    return failures != 0;
}
