/* The names of codes and services as text, for messages and logs; a number that has none gets words that say so, never a null pointer.
   These functions are tested and not proved. */
#ifndef GRITGARLAND_NAMES_H
#define GRITGARLAND_NAMES_H

#include "gritgarland.h"

#ifdef __cplusplus
extern "C" {
#endif

/* of the code that one call answers, or of a wait code with its sign; the number of a whole list is another thing */
static inline const char *gritgarland_code_name(int32_t code)
{
    switch (code) {
    case GRITGARLAND_NO_ERR: return "NO_ERR";
    case GRITGARLAND_PENDING: return "PENDING";
    case GRITGARLAND_OVERFLOW: return "OVERFLOW";
    case GRITGARLAND_WCONTEXT: return "WCONTEXT";
    case GRITGARLAND_WSTATE: return "WSTATE";
    case GRITGARLAND_TIMEOUT: return "TIMEOUT";
    case GRITGARLAND_WRONG_PARAM: return "WRONG_PARAM";
    case GRITGARLAND_ILUSE: return "ILUSE";
    case GRITGARLAND_NOEXS: return "NOEXS";
    case GRITGARLAND_DLT: return "DLT";
    case GRITGARLAND_RELEASED: return "RELEASED";
    case GRITGARLAND_UNSOUND: return "UNSOUND";
    default: return "no such code";
    }
}

/* as a list writes it; ready_ticks, which no list has, as docs/SERVICES.md does */
static inline const char *gritgarland_service_name(uint32_t service)
{
    switch (service) {
    case GRITGARLAND_TASK_CREATE: return "tn_task_create";
    case GRITGARLAND_TASK_DELETE: return "tn_task_delete";
    case GRITGARLAND_TASK_ACTIVATE: return "tn_task_activate";
    case GRITGARLAND_TASK_IACTIVATE: return "tn_task_iactivate";
    case GRITGARLAND_TASK_EXIT: return "tn_task_exit";
    case GRITGARLAND_TASK_TERMINATE: return "tn_task_terminate";
    case GRITGARLAND_TASK_SUSPEND: return "tn_task_suspend";
    case GRITGARLAND_TASK_RESUME: return "tn_task_resume";
    case GRITGARLAND_TASK_SLEEP: return "tn_task_sleep";
    case GRITGARLAND_TASK_WAKEUP: return "tn_task_wakeup";
    case GRITGARLAND_TASK_IWAKEUP: return "tn_task_iwakeup";
    case GRITGARLAND_TASK_RELEASE_WAIT: return "tn_task_release_wait";
    case GRITGARLAND_TASK_IRELEASE_WAIT: return "tn_task_irelease_wait";
    case GRITGARLAND_TASK_CHANGE_PRIORITY: return "tn_task_change_priority";
    case GRITGARLAND_SYS_TSLICE_TICKS: return "tn_sys_tslice_ticks";
    case GRITGARLAND_TICK_INT_PROCESSING: return "tn_tick_int_processing";
    case GRITGARLAND_SEM_CREATE: return "tn_sem_create";
    case GRITGARLAND_SEM_DELETE: return "tn_sem_delete";
    case GRITGARLAND_SEM_SIGNAL: return "tn_sem_signal";
    case GRITGARLAND_SEM_ISIGNAL: return "tn_sem_isignal";
    case GRITGARLAND_SEM_ACQUIRE: return "tn_sem_acquire";
    case GRITGARLAND_SEM_POLLING: return "tn_sem_polling";
    case GRITGARLAND_SEM_IPOLLING: return "tn_sem_ipolling";
    case GRITGARLAND_EVENT_CREATE: return "tn_event_create";
    case GRITGARLAND_EVENT_DELETE: return "tn_event_delete";
    case GRITGARLAND_EVENT_SET: return "tn_event_set";
    case GRITGARLAND_EVENT_ISET: return "tn_event_iset";
    case GRITGARLAND_EVENT_CLEAR: return "tn_event_clear";
    case GRITGARLAND_EVENT_ICLEAR: return "tn_event_iclear";
    case GRITGARLAND_EVENT_WAIT: return "tn_event_wait";
    case GRITGARLAND_EVENT_WAIT_POLLING: return "tn_event_wait_polling";
    case GRITGARLAND_EVENT_IWAIT: return "tn_event_iwait";
    case GRITGARLAND_READY_TICKS: return "ready_ticks";
    case GRITGARLAND_QUEUE_CREATE: return "tn_queue_create";
    case GRITGARLAND_QUEUE_DELETE: return "tn_queue_delete";
    case GRITGARLAND_QUEUE_SEND: return "tn_queue_send";
    case GRITGARLAND_QUEUE_SEND_POLLING: return "tn_queue_send_polling";
    case GRITGARLAND_QUEUE_ISEND_POLLING: return "tn_queue_isend_polling";
    case GRITGARLAND_QUEUE_RECEIVE: return "tn_queue_receive";
    case GRITGARLAND_QUEUE_RECEIVE_POLLING: return "tn_queue_receive_polling";
    case GRITGARLAND_QUEUE_IRECEIVE: return "tn_queue_ireceive";
    default: return "no such service";
    }
}

#ifdef __cplusplus
}
#endif

#endif
