/* The entry in place against the entry by value, and each service by its own function of the header against its number in
   docs/SERVICES.md: on every state of a play the same code, running task, value and state. The numbers tried tell any two services
   apart, and any two numbers of one, and that is looked at too: a header that swaps two of them does not pass. */
#include "gritgarland.h"
#include "libc.h"
#include "same.h"

_Static_assert(sizeof(gritgarland_report) == 12, "a report");

enum { SERVICES = 41, NUMBERS = 4 };

/* how many numbers each service takes */
static const uint32_t takes[SERVICES + 1] = {0, 3, 1, 1, 1, 0, 1, 1, 1, 1, 1, 1, 1, 1, 2, 2, 0, 3, 1, 1, 1, 2, 1, 1, 3, 1, 2, 2, 2, 2, 4, 3, 3, 1, 2, 1, 3, 2, 2, 2, 1, 1};

static int failures;
static gritgarland_reply replies[SERVICES + 1];
static int apart[SERVICES + 1][SERVICES + 1];
static int numbers_apart[SERVICES + 1][NUMBERS][NUMBERS];

static void expect(int holds, const char *what, uint32_t service)
{
    if (!holds) {
        printf("in_place.c: service %u: %s\n", service, what);
        failures++;
    }
}

static gritgarland_report by_name(gritgarland_state *s, uint32_t context, uint32_t service, const uint32_t *n)
{
    switch (service) {
    case 1: return gritgarland_task_create(s, context, n[0], n[1], n[2]);
    case 2: return gritgarland_task_delete(s, context, n[0]);
    case 3: return gritgarland_task_activate(s, context, n[0]);
    case 4: return gritgarland_task_iactivate(s, context, n[0]);
    case 5: return gritgarland_task_exit(s, context);
    case 6: return gritgarland_task_terminate(s, context, n[0]);
    case 7: return gritgarland_task_suspend(s, context, n[0]);
    case 8: return gritgarland_task_resume(s, context, n[0]);
    case 9: return gritgarland_task_sleep(s, context, n[0]);
    case 10: return gritgarland_task_wakeup(s, context, n[0]);
    case 11: return gritgarland_task_iwakeup(s, context, n[0]);
    case 12: return gritgarland_task_release_wait(s, context, n[0]);
    case 13: return gritgarland_task_irelease_wait(s, context, n[0]);
    case 14: return gritgarland_task_change_priority(s, context, n[0], n[1]);
    case 15: return gritgarland_sys_tslice_ticks(s, context, n[0], n[1]);
    case 16: return gritgarland_tick_int_processing(s, context);
    case 17: return gritgarland_sem_create(s, context, n[0], n[1], n[2]);
    case 18: return gritgarland_sem_delete(s, context, n[0]);
    case 19: return gritgarland_sem_signal(s, context, n[0]);
    case 20: return gritgarland_sem_isignal(s, context, n[0]);
    case 21: return gritgarland_sem_acquire(s, context, n[0], n[1]);
    case 22: return gritgarland_sem_polling(s, context, n[0]);
    case 23: return gritgarland_sem_ipolling(s, context, n[0]);
    case 24: return gritgarland_event_create(s, context, n[0], n[1], n[2]);
    case 25: return gritgarland_event_delete(s, context, n[0]);
    case 26: return gritgarland_event_set(s, context, n[0], n[1]);
    case 27: return gritgarland_event_iset(s, context, n[0], n[1]);
    case 28: return gritgarland_event_clear(s, context, n[0], n[1]);
    case 29: return gritgarland_event_iclear(s, context, n[0], n[1]);
    case 30: return gritgarland_event_wait(s, context, n[0], n[1], n[2], n[3]);
    case 31: return gritgarland_event_wait_polling(s, context, n[0], n[1], n[2]);
    case 32: return gritgarland_event_iwait(s, context, n[0], n[1], n[2]);
    case 33: return gritgarland_ready_ticks(s, context, n[0]);
    case 34: return gritgarland_queue_create(s, context, n[0], n[1]);
    case 35: return gritgarland_queue_delete(s, context, n[0]);
    case 36: return gritgarland_queue_send(s, context, n[0], n[1], n[2]);
    case 37: return gritgarland_queue_send_polling(s, context, n[0], n[1]);
    case 38: return gritgarland_queue_isend_polling(s, context, n[0], n[1]);
    case 39: return gritgarland_queue_receive(s, context, n[0], n[1]);
    case 40: return gritgarland_queue_receive_polling(s, context, n[0]);
    case 41: return gritgarland_queue_ireceive(s, context, n[0]);
    default: return gritgarland_call_in_place(s, context, service, n[0], n[1], n[2], n[3]);
    }
}

static gritgarland_reply by_value(const gritgarland_state *s, uint32_t context, uint32_t service, const uint32_t *n)
{
    return gritgarland_call(*s, context, service, n[0], n[1], n[2], n[3]);
}

static int agree(gritgarland_report r, const gritgarland_state *s, const gritgarland_reply *q)
{
    return r.code == q->code && r.running == q->running && r.value == q->value && same(s, &q->state);
}

static int differ(const gritgarland_reply *p, const gritgarland_reply *q)
{
    gritgarland_report r = {p->code, p->running, p->value};
    return !agree(r, &p->state, q);
}

static gritgarland_reply three_ways(const gritgarland_state *s, uint32_t context, uint32_t service, const uint32_t *n)
{
    gritgarland_reply q = by_value(s, context, service, n);
    gritgarland_state lent = *s;
    expect(agree(gritgarland_call_in_place(&lent, context, service, n[0], n[1], n[2], n[3]), &lent, &q), "in place it answers otherwise", service);
    expect(q.code >= 0 || same(&lent, s), "a refusal alters the state", service);
    lent = *s;
    expect(agree(by_name(&lent, context, service, n), &lent, &q), "its own function answers otherwise", service);
    return q;
}

/* notes which of its numbers a service tells apart here */
static void swap_numbers(const gritgarland_state *s, uint32_t context, uint32_t service, const uint32_t *n)
{
    for (uint32_t i = 0; i < takes[service]; i++)
        for (uint32_t j = i + 1; j < takes[service]; j++) {
            uint32_t m[NUMBERS] = {n[0], n[1], n[2], n[3]};
            m[i] = n[j];
            m[j] = n[i];
            gritgarland_reply q = by_value(s, context, service, m);
            numbers_apart[service][i][j] |= differ(&replies[service], &q);
        }
}

static void every_service(const gritgarland_state *s, uint32_t context, const uint32_t *n)
{
    for (uint32_t service = 0; service <= SERVICES; service++) {
        replies[service] = three_ways(s, context, service, n);
        swap_numbers(s, context, service, n);
        for (uint32_t other = 1; other < service; other++)
            apart[other][service] |= differ(&replies[other], &replies[service]);
    }
    three_ways(s, context, SERVICES + 1, n);
    three_ways(s, 2, 1 + n[0], n);
}

/* every order of four different numbers, with 0 and without */
static void every_order(const gritgarland_state *s)
{
    uint32_t n[NUMBERS];
    for (uint32_t least = 0; least <= 1; least++)
        for (n[0] = least; n[0] < least + 4; n[0]++)
            for (n[1] = least; n[1] < least + 4; n[1]++)
                for (n[2] = least; n[2] < least + 4; n[2]++) {
                    n[3] = 4 * least + 6 - n[0] - n[1] - n[2];
                    if (n[0] == n[1] || n[0] == n[2] || n[1] == n[2])
                        continue;
                    every_service(s, GRITGARLAND_T, n);
                    every_service(s, GRITGARLAND_I, n);
                }
}

static const struct {
    uint32_t context, service, n[NUMBERS];
    int32_t code;
} play[] = {
    {0, 17, {1, 0, 3, 0}, 0},  /* semaphore 1, empty */
    {0, 17, {2, 2, 4, 0}, 0},  /* semaphore 2, not empty */
    {0, 24, {1, 0, 6, 0}, 0},  /* flag 1, with bits */
    {0, 24, {2, 3, 0, 0}, 0},  /* flag 2, SINGLE and CLR */
    {0, 34, {1, 1, 0, 0}, 0},  /* data queue 1, of one place */
    {0, 34, {2, 0, 0, 0}, 0},  /* data queue 2, without capacity */
    {0, 1, {1, 2, 1, 0}, 0},   /* task 1 runs */
    {0, 1, {2, 3, 0, 0}, 0},   /* task 2 is dormant */
    {0, 1, {3, 2, 1, 0}, 0},   /* task 3 is ready behind task 1 */
    {0, 15, {2, 3, 0, 0}, 0},  /* their level has a slice */
    {0, 9, {4, 0, 0, 0}, 1},   /* task 1 sleeps */
    {0, 7, {3, 0, 0, 0}, 0},   /* task 3 suspends itself */
    {0, 3, {2, 0, 0, 0}, 0},   /* task 2 runs */
    {0, 21, {1, 3, 0, 0}, 1},  /* and waits on semaphore 1 */
    {0, 8, {3, 0, 0, 0}, 0},   /* task 3 runs */
    {0, 30, {2, 3, 1, 4}, 1},  /* and waits on flag 2 */
    {1, 27, {2, 7, 0, 0}, 0},  /* a set serves it */
    {1, 16, {0, 0, 0, 0}, 0},  /* a tick */
    {0, 36, {1, 9, 2, 0}, 0},  /* task 3 fills queue 1 */
    {0, 36, {1, 8, 2, 0}, 1},  /* and waits with one element more */
    {1, 41, {1, 0, 0, 0}, 0},  /* which goes in as the first comes out */
    {0, 39, {2, 3, 0, 0}, 1},  /* task 3 waits for an element of queue 2 */
    {1, 38, {2, 7, 0, 0}, 0},  /* and gets it */
};

int main(void)
{
    gritgarland_state now;
    memset(&now, 0, sizeof now);
    every_order(&now);
    for (size_t i = 0; i < sizeof play / sizeof play[0]; i++) {
        expect(by_name(&now, play[i].context, play[i].service, play[i].n).code == play[i].code, "the play", play[i].service);
        if (i >= 7)
            every_order(&now);
    }
    now.tasks[3].wakeups = 2;
    expect(!gritgarland_is_sound(now), "two wakeups are not sound", 0);
    every_order(&now);

    for (uint32_t service = 1; service <= SERVICES; service++) {
        for (uint32_t other = 1; other < service; other++)
            expect(apart[other][service], "no call tells it from an earlier one", service);
        for (uint32_t i = 0; i < takes[service]; i++)
            for (uint32_t j = i + 1; j < takes[service]; j++)
                expect(numbers_apart[service][i][j], "no call tells two of its numbers apart", service);
    }
    if (failures == 0)
        printf("in_place.c: all as it must be\n");
    return failures != 0;
}
