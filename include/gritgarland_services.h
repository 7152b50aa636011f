/* Each service of gritgarland.h as a function of its own, named as in TNKernel where that has it, on the one state that the caller lends.
   They are thin calls of gritgarland_call_in_place, which is proved; these functions themselves are tested and not proved. */
#ifndef GRITGARLAND_SERVICES_H
#define GRITGARLAND_SERVICES_H

#include "gritgarland.h"

#ifdef __cplusplus
extern "C" {
#endif

static inline gritgarland_report gritgarland_task_create(gritgarland_state *state, uint32_t context, uint32_t task, uint32_t priority, uint32_t option)
{
    return gritgarland_call_in_place(state, context, GRITGARLAND_TASK_CREATE, task, priority, option, 0);
}
static inline gritgarland_report gritgarland_task_delete(gritgarland_state *state, uint32_t context, uint32_t task)
{
    return gritgarland_call_in_place(state, context, GRITGARLAND_TASK_DELETE, task, 0, 0, 0);
}
static inline gritgarland_report gritgarland_task_activate(gritgarland_state *state, uint32_t context, uint32_t task)
{
    return gritgarland_call_in_place(state, context, GRITGARLAND_TASK_ACTIVATE, task, 0, 0, 0);
}
static inline gritgarland_report gritgarland_task_iactivate(gritgarland_state *state, uint32_t context, uint32_t task)
{
    return gritgarland_call_in_place(state, context, GRITGARLAND_TASK_IACTIVATE, task, 0, 0, 0);
}
static inline gritgarland_report gritgarland_task_exit(gritgarland_state *state, uint32_t context)
{
    return gritgarland_call_in_place(state, context, GRITGARLAND_TASK_EXIT, 0, 0, 0, 0);
}
static inline gritgarland_report gritgarland_task_terminate(gritgarland_state *state, uint32_t context, uint32_t task)
{
    return gritgarland_call_in_place(state, context, GRITGARLAND_TASK_TERMINATE, task, 0, 0, 0);
}
static inline gritgarland_report gritgarland_task_suspend(gritgarland_state *state, uint32_t context, uint32_t task)
{
    return gritgarland_call_in_place(state, context, GRITGARLAND_TASK_SUSPEND, task, 0, 0, 0);
}
static inline gritgarland_report gritgarland_task_resume(gritgarland_state *state, uint32_t context, uint32_t task)
{
    return gritgarland_call_in_place(state, context, GRITGARLAND_TASK_RESUME, task, 0, 0, 0);
}
static inline gritgarland_report gritgarland_task_sleep(gritgarland_state *state, uint32_t context, uint32_t timeout)
{
    return gritgarland_call_in_place(state, context, GRITGARLAND_TASK_SLEEP, timeout, 0, 0, 0);
}
static inline gritgarland_report gritgarland_task_wakeup(gritgarland_state *state, uint32_t context, uint32_t task)
{
    return gritgarland_call_in_place(state, context, GRITGARLAND_TASK_WAKEUP, task, 0, 0, 0);
}
static inline gritgarland_report gritgarland_task_iwakeup(gritgarland_state *state, uint32_t context, uint32_t task)
{
    return gritgarland_call_in_place(state, context, GRITGARLAND_TASK_IWAKEUP, task, 0, 0, 0);
}
static inline gritgarland_report gritgarland_task_release_wait(gritgarland_state *state, uint32_t context, uint32_t task)
{
    return gritgarland_call_in_place(state, context, GRITGARLAND_TASK_RELEASE_WAIT, task, 0, 0, 0);
}
static inline gritgarland_report gritgarland_task_irelease_wait(gritgarland_state *state, uint32_t context, uint32_t task)
{
    return gritgarland_call_in_place(state, context, GRITGARLAND_TASK_IRELEASE_WAIT, task, 0, 0, 0);
}
static inline gritgarland_report gritgarland_task_change_priority(gritgarland_state *state, uint32_t context, uint32_t task, uint32_t priority)
{
    return gritgarland_call_in_place(state, context, GRITGARLAND_TASK_CHANGE_PRIORITY, task, priority, 0, 0);
}
static inline gritgarland_report gritgarland_sys_tslice_ticks(gritgarland_state *state, uint32_t context, uint32_t level, uint32_t slice)
{
    return gritgarland_call_in_place(state, context, GRITGARLAND_SYS_TSLICE_TICKS, level, slice, 0, 0);
}
static inline gritgarland_report gritgarland_tick_int_processing(gritgarland_state *state, uint32_t context)
{
    return gritgarland_call_in_place(state, context, GRITGARLAND_TICK_INT_PROCESSING, 0, 0, 0, 0);
}
static inline gritgarland_report gritgarland_sem_create(gritgarland_state *state, uint32_t context, uint32_t semaphore, uint32_t start, uint32_t maximum)
{
    return gritgarland_call_in_place(state, context, GRITGARLAND_SEM_CREATE, semaphore, start, maximum, 0);
}
static inline gritgarland_report gritgarland_sem_delete(gritgarland_state *state, uint32_t context, uint32_t semaphore)
{
    return gritgarland_call_in_place(state, context, GRITGARLAND_SEM_DELETE, semaphore, 0, 0, 0);
}
static inline gritgarland_report gritgarland_sem_signal(gritgarland_state *state, uint32_t context, uint32_t semaphore)
{
    return gritgarland_call_in_place(state, context, GRITGARLAND_SEM_SIGNAL, semaphore, 0, 0, 0);
}
static inline gritgarland_report gritgarland_sem_isignal(gritgarland_state *state, uint32_t context, uint32_t semaphore)
{
    return gritgarland_call_in_place(state, context, GRITGARLAND_SEM_ISIGNAL, semaphore, 0, 0, 0);
}
static inline gritgarland_report gritgarland_sem_acquire(gritgarland_state *state, uint32_t context, uint32_t semaphore, uint32_t timeout)
{
    return gritgarland_call_in_place(state, context, GRITGARLAND_SEM_ACQUIRE, semaphore, timeout, 0, 0);
}
static inline gritgarland_report gritgarland_sem_polling(gritgarland_state *state, uint32_t context, uint32_t semaphore)
{
    return gritgarland_call_in_place(state, context, GRITGARLAND_SEM_POLLING, semaphore, 0, 0, 0);
}
static inline gritgarland_report gritgarland_sem_ipolling(gritgarland_state *state, uint32_t context, uint32_t semaphore)
{
    return gritgarland_call_in_place(state, context, GRITGARLAND_SEM_IPOLLING, semaphore, 0, 0, 0);
}
static inline gritgarland_report gritgarland_event_create(gritgarland_state *state, uint32_t context, uint32_t flag, uint32_t attributes, uint32_t bits)
{
    return gritgarland_call_in_place(state, context, GRITGARLAND_EVENT_CREATE, flag, attributes, bits, 0);
}
static inline gritgarland_report gritgarland_event_delete(gritgarland_state *state, uint32_t context, uint32_t flag)
{
    return gritgarland_call_in_place(state, context, GRITGARLAND_EVENT_DELETE, flag, 0, 0, 0);
}
static inline gritgarland_report gritgarland_event_set(gritgarland_state *state, uint32_t context, uint32_t flag, uint32_t bits)
{
    return gritgarland_call_in_place(state, context, GRITGARLAND_EVENT_SET, flag, bits, 0, 0);
}
static inline gritgarland_report gritgarland_event_iset(gritgarland_state *state, uint32_t context, uint32_t flag, uint32_t bits)
{
    return gritgarland_call_in_place(state, context, GRITGARLAND_EVENT_ISET, flag, bits, 0, 0);
}
static inline gritgarland_report gritgarland_event_clear(gritgarland_state *state, uint32_t context, uint32_t flag, uint32_t bits)
{
    return gritgarland_call_in_place(state, context, GRITGARLAND_EVENT_CLEAR, flag, bits, 0, 0);
}
static inline gritgarland_report gritgarland_event_iclear(gritgarland_state *state, uint32_t context, uint32_t flag, uint32_t bits)
{
    return gritgarland_call_in_place(state, context, GRITGARLAND_EVENT_ICLEAR, flag, bits, 0, 0);
}
static inline gritgarland_report gritgarland_event_wait(gritgarland_state *state, uint32_t context, uint32_t flag, uint32_t pattern, uint32_t mode, uint32_t timeout)
{
    return gritgarland_call_in_place(state, context, GRITGARLAND_EVENT_WAIT, flag, pattern, mode, timeout);
}
static inline gritgarland_report gritgarland_event_wait_polling(gritgarland_state *state, uint32_t context, uint32_t flag, uint32_t pattern, uint32_t mode)
{
    return gritgarland_call_in_place(state, context, GRITGARLAND_EVENT_WAIT_POLLING, flag, pattern, mode, 0);
}
static inline gritgarland_report gritgarland_event_iwait(gritgarland_state *state, uint32_t context, uint32_t flag, uint32_t pattern, uint32_t mode)
{
    return gritgarland_call_in_place(state, context, GRITGARLAND_EVENT_IWAIT, flag, pattern, mode, 0);
}
/* The ticks since the task last entered its level, in `value`: since it became runnable, changed its priority or was sent back at its
   slice, whatever it has done since. They are exact while fewer than 4,294,967,296 ticks have passed. The state stays as it is. */
static inline gritgarland_report gritgarland_ready_ticks(gritgarland_state *state, uint32_t context, uint32_t task)
{
    return gritgarland_call_in_place(state, context, GRITGARLAND_READY_TICKS, task, 0, 0, 0);
}
static inline gritgarland_report gritgarland_queue_create(gritgarland_state *state, uint32_t context, uint32_t queue, uint32_t capacity)
{
    return gritgarland_call_in_place(state, context, GRITGARLAND_QUEUE_CREATE, queue, capacity, 0, 0);
}
static inline gritgarland_report gritgarland_queue_delete(gritgarland_state *state, uint32_t context, uint32_t queue)
{
    return gritgarland_call_in_place(state, context, GRITGARLAND_QUEUE_DELETE, queue, 0, 0, 0);
}
static inline gritgarland_report gritgarland_queue_send(gritgarland_state *state, uint32_t context, uint32_t queue, uint32_t element, uint32_t timeout)
{
    return gritgarland_call_in_place(state, context, GRITGARLAND_QUEUE_SEND, queue, element, timeout, 0);
}
static inline gritgarland_report gritgarland_queue_send_polling(gritgarland_state *state, uint32_t context, uint32_t queue, uint32_t element)
{
    return gritgarland_call_in_place(state, context, GRITGARLAND_QUEUE_SEND_POLLING, queue, element, 0, 0);
}
static inline gritgarland_report gritgarland_queue_isend_polling(gritgarland_state *state, uint32_t context, uint32_t queue, uint32_t element)
{
    return gritgarland_call_in_place(state, context, GRITGARLAND_QUEUE_ISEND_POLLING, queue, element, 0, 0);
}
/* The element is in `value` with NO_ERR, and may be 0. With PENDING the task waits; once it runs again, its record has the wait code, and
   behind code 0 the element, in `handed`. */
static inline gritgarland_report gritgarland_queue_receive(gritgarland_state *state, uint32_t context, uint32_t queue, uint32_t timeout)
{
    return gritgarland_call_in_place(state, context, GRITGARLAND_QUEUE_RECEIVE, queue, timeout, 0, 0);
}
static inline gritgarland_report gritgarland_queue_receive_polling(gritgarland_state *state, uint32_t context, uint32_t queue)
{
    return gritgarland_call_in_place(state, context, GRITGARLAND_QUEUE_RECEIVE_POLLING, queue, 0, 0, 0);
}
static inline gritgarland_report gritgarland_queue_ireceive(gritgarland_state *state, uint32_t context, uint32_t queue)
{
    return gritgarland_call_in_place(state, context, GRITGARLAND_QUEUE_IRECEIVE, queue, 0, 0, 0);
}

#ifdef __cplusplus
}
#endif

#endif
