/* Whole lists from C, by both names of the function: the worked list, every refusal, endless timeouts in words and in digits, and every
   byte of the buffer before and after. */
#include "gritgarland.h"
#include "libc.h"

static int failures;
static uint8_t file[GRITGARLAND_FILE_MOST + 1];
static uint8_t before[GRITGARLAND_ANSWER_MOST + 16], after[GRITGARLAND_ANSWER_MOST + 16];

static void expect(int holds, const char *what)
{
    if (!holds) {
        printf("lists.c: %s\n", what);
        failures++;
    }
}

static size_t length(const char *text)
{
    size_t n = 0;
    while (text[n] != 0)
        n++;
    return n;
}

typedef int64_t entry(const uint8_t *file, size_t file_length, uint8_t *answer, size_t answer_length);

static void run_by(entry *list, size_t n, size_t room, int64_t number, const char *text, const char *what)
{
    for (size_t i = 0; i < sizeof before; i++)
        before[i] = (uint8_t)(i * 37 + 11);
    memcpy(after, before, sizeof after);
    int64_t got = list(file, n, after, room);
    size_t written = got > 0 ? (size_t)got : 0;
    expect(got == number, what);
    expect(written <= room, what);
    expect(text == NULL || (written == length(text) && memcmp(after, text, written) == 0), what);
    expect(memcmp(after + written, before + written, sizeof after - written) == 0, what);
}

/* Runs n bytes of `file` with room for so many; the number it must give and, if it is not negative, the text it must write. */
static void run(size_t n, size_t room, int64_t number, const char *text, const char *what)
{
    run_by(run_list, n, room, number, text, what);
    run_by(gritgarland_run_list, n, room, number, text, what);
}

static size_t put(const char *text)
{
    size_t n = length(text);
    memcpy(file, text, n);
    return n;
}

#define HEADER "ctx,service,a,b,c\n"
#define HEADER_SIX "ctx,service,a,b,c,d\n"

static const char worked[] = HEADER "T,tn_sem_create,1,0,1\nT,tn_task_create,1,5,1\nT,tn_task_create,2,5,1\nT,tn_sem_acquire,1,2,\n"
    "I,tn_tick_int_processing,,,\nI,tn_sem_isignal,1,,\nT,tn_sem_signal,1,,\nT,tn_sem_signal,1,,\nT,tn_task_exit,,,\nT,tn_sem_polling,1,,\n";
static const char answer[] = "n,code,running\r\n1,0,0\r\n2,0,1\r\n3,0,1\r\n4,1,2\r\n5,0,2\r\n6,0,2\r\n7,0,2\r\n8,-1,2\r\n9,0,1\r\n10,0,1\r\n";

/* a hold until a key press: the endless wait on a flag that an interrupt sets */
static const char held[] = HEADER_SIX "T,tn_event_create,1,3,0,\nT,tn_task_create,1,2,1,\nT,tn_event_wait,1,1,0,4294967295\n"
    "I,tn_tick_int_processing,,,,\nI,tn_event_iset,1,1,,\nT,tn_event_set,1,6,,\nT,tn_event_clear,1,2,,\nT,tn_event_wait_polling,1,4,0,\nI,tn_event_iwait,1,4,0,\n";
static const char held_answer[] = "n,code,running\r\n1,0,0\r\n2,0,1\r\n3,1,0\r\n4,0,0\r\n5,0,1\r\n6,0,1\r\n7,0,1\r\n8,0,1\r\n9,-4,1\r\n";

/* endless waits of each kind, a star for each timeout; every wait is ended by an interrupt, but for the last */
static const char waits[] = HEADER "T,tn_sem_create,1,0,1\nT,tn_task_create,1,5,1\nT,tn_task_create,2,6,1\nT,tn_sem_acquire,1,*,\nT,tn_task_sleep,*,,\n"
    "I,tn_tick_int_processing,,,\nI,tn_sem_isignal,1,,\nI,tn_task_iwakeup,2,,\nT,tn_task_sleep,*,,\n";
static const char waits_answer[] = "n,code,running\r\n1,0,0\r\n2,0,1\r\n3,0,1\r\n4,1,2\r\n5,1,0\r\n6,0,0\r\n7,0,1\r\n8,0,1\r\n9,1,2\r\n";
static const char waits_six[] = HEADER_SIX "T,tn_event_create,1,0,0,\nT,tn_sem_create,1,0,1,\nT,tn_task_create,1,5,1,\nT,tn_sem_acquire,1,*,,\n"
    "I,tn_sem_isignal,1,,,\nT,tn_task_sleep,*,,,\nI,tn_tick_int_processing,,,,\nI,tn_task_iwakeup,1,,,\nT,tn_event_wait,1,1,0,*\n";
static const char waits_six_answer[] = "n,code,running\r\n1,0,0\r\n2,0,0\r\n3,0,1\r\n4,1,0\r\n5,0,1\r\n6,1,0\r\n7,0,0\r\n8,0,1\r\n9,1,0\r\n";

/* a sender waits outside a queue of one place, a receiver at one without capacity; the words of timeouts are in both */
static const char messages[] = HEADER "T,tn_queue_create,1,1,\nT,tn_queue_create,8,0,\nT,tn_task_create,1,5,1\nT,tn_queue_send,1,4294967295,*\nT,tn_queue_send,1,0,*\n"
    "I,tn_tick_int_processing,,,\nI,tn_queue_ireceive,1,,\nT,tn_queue_receive,1,*,\nT,tn_queue_receive_polling,1,,\nT,tn_queue_receive,8,*,\nI,tn_queue_isend_polling,8,7,\n"
    "T,tn_queue_send_polling,8,7,\nT,tn_queue_delete,8,,\n";
static const char messages_answer[] = "n,code,running\r\n1,0,0\r\n2,0,0\r\n3,0,1\r\n4,0,1\r\n5,1,0\r\n6,0,0\r\n7,0,1\r\n8,0,1\r\n9,-4,1\r\n10,1,0\r\n11,0,1\r\n12,-4,1\r\n13,0,1\r\n";

/* the list with this for its stars, these line ends, and none after the last line */
static size_t put_with(const char *text, const char *star, const char *line_end)
{
    size_t n = 0;
    for (size_t i = 0; text[i] != 0; i++) {
        const char *part = text[i] == '*' ? star : line_end;
        if (text[i] == '*' || text[i] == '\n') {
            memcpy(file + n, part, length(part));
            n += length(part);
        } else
            file[n++] = (uint8_t)text[i];
    }
    return n - length(line_end);
}

static void endless(const char *star, const char *line_end)
{
    size_t n = put_with(waits, star, line_end);
    run(n, 4096, sizeof waits_answer - 1, waits_answer, "endless waits under five fields");
    run(n + length(line_end), 4096, sizeof waits_answer - 1, waits_answer, "and with an end of the last line");
    n = put_with(messages, star, line_end);
    run(n, 4096, sizeof messages_answer - 1, messages_answer, "endless waits on data queues");
    n = put_with(waits_six, star, line_end);
    run(n, 4096, sizeof waits_six_answer - 1, waits_six_answer, "endless waits under six fields");
    run(n + length(line_end), 4096, sizeof waits_six_answer - 1, waits_six_answer, "and with an end of their last line");
}

static void unreadable(const char *line, const char *what)
{
    size_t n = put(HEADER "T,tn_task_exit,,,\n");
    size_t m = length(line);
    memcpy(file + n, line, m);
    run(n + m, 4096, -13, NULL, what);
}

int main(void)
{
    size_t full = sizeof answer - 1;
    size_t n = put(worked);
    run(n, 4096, (int64_t)full, answer, "the worked list");
    run(n, full, (int64_t)full, answer, "a buffer of just its length");
    for (size_t room = 0; room < full; room++)
        run(n, room, -2, NULL, "a shorter buffer");
    run(n - 1, 4096, (int64_t)full, answer, "no end after the last line");

    run(0, 4096, -11, NULL, "an empty file");
    run(put("ctx,service,a,b,c"), 4096, 16, "n,code,running\r\n", "a header alone");
    run(put("ctx,service,a,b,c\r\n"), 16, 16, "n,code,running\r\n", "a header with CRLF");
    run(put("ctx,service,a,b,c\r\n"), 15, -2, NULL, "no room for the header");
    run(put("ctx,service,a,b\n"), 4096, -11, NULL, "another header");
    run(put(HEADER "\n"), 4096, -12, NULL, "an empty line");
    run(put(HEADER "T,tn_task_exit,,,\r\nT,tn_task_exit,,,\n"), 4096, 32, "n,code,running\r\n1,-2,0\r\n2,-2,0\r\n", "line ends may mix");

    unreadable("T,tn_task_exit,,,\r", "a CR at the end of the file");
    unreadable("T,tn_task_exit,,,\r\r\n", "two CRs");
    unreadable("t,tn_task_exit,,,\n", "a small letter");
    unreadable("T,tn_task_quit,,,\n", "a service that is none");
    unreadable("T,ready_ticks,1,,\n", "a service that no list holds");
    unreadable("I,ready_ticks,1,,\n", "from an interrupt too");
    unreadable("T,tn_ready_ticks,1,,\n", "and by no other name");
    unreadable("I,tn_queue_isend,1,7,\n", "a name that TNKernel has not");
    unreadable("I,tn_queue_ireceive_polling,1,,\n", "nor this");
    unreadable("T,tn_queue_create,1,,\n", "a data queue without its capacity");
    unreadable("T,tn_queue_create,1,4,0\n", "or with a start value");
    unreadable("T,tn_queue_send,1,7,\n", "a send without its timeout");
    unreadable("T,tn_queue_send_polling,1,7,5\n", "a polling send with one");
    unreadable("T,tn_queue_send,1,forever,5\n", "the word for an element");
    unreadable("T,tn_queue_receive,forever,5,\n", "and for a data queue");
    unreadable("T,tn_task_exit,0,,\n", "an unused field that is filled");
    unreadable("T,tn_task_sleep,,,\n", "a used field that is blank");
    unreadable("T,tn_task_sleep,01,,\n", "a needless leading zero");
    unreadable("T,tn_task_sleep,4294967296,,\n", "a number that is too large");
    unreadable("T,tn_task_sleep,-1,,\n", "a sign");
    unreadable("T,tn_task_sleep,1,\n", "four fields");
    unreadable("T,tn_task_sleep,1,,,\n", "six fields");
    unreadable("T,tn_task_sleep,1 ,,\n", "a space");

    run(put(held), 4096, sizeof held_answer - 1, held_answer, "a hold as a flag wait");
    run(put("ctx,service,a,b,c,d"), 4096, 16, "n,code,running\r\n", "a header of six fields");
    run(put(HEADER_SIX "T,tn_task_exit,,,,\n"), 4096, 24, "n,code,running\r\n1,-2,0\r\n", "a line of six fields");
    run(put(HEADER_SIX "T,tn_task_exit,,,\n"), 4096, -12, NULL, "five fields under the header of six");
    run(put(HEADER_SIX "T,tn_task_create,1,5,1,\nT,ready_ticks,1,,,\n"), 4096, -13, NULL, "no list holds it under this header either");
    run(put(HEADER_SIX "T,tn_event_wait,1,1,0,\n"), 4096, -12, NULL, "a flag wait without its timeout");
    unreadable("T,tn_event_wait,1,1,0\n", "a flag wait under the header of five fields");
    unreadable("T,tn_event_wait,1,1,0,5\n", "and with its sixth field");

    endless("4294967295", "\n");
    endless("4294967295", "\r\n");
    endless("forever", "\n");
    endless("forever", "\r\n");
    unreadable("T,tn_task_create,1,forever,1\n", "the word for a priority");
    unreadable("T,tn_task_suspend,forever,,\n", "for a task");
    unreadable("T,tn_sem_acquire,forever,forever,\n", "for a semaphore");
    unreadable("T,tn_task_sleep,forever,forever,\n", "in a field that is not used");
    unreadable("T,tn_task_exit,,,forever\n", "and in the last of them");
    unreadable("T,tn_task_sleep,Forever,,\n", "the word with a capital");
    unreadable("T,tn_task_sleep,FOREVER,,\n", "in capitals");
    unreadable("T,tn_task_sleep,foreve,,\n", "without its last letter");
    unreadable("T,tn_task_sleep,forever1,,\n", "with a digit behind it");
    unreadable("T,tn_task_sleep,forever ,,\n", "with a space behind it");
    unreadable("T,tn_task_sleep, forever,,\n", "with a space before it");
    unreadable("T,tn_task_sleep,\"forever\",,\n", "in quotes");
    unreadable("T,tn_task_sleep,forever", "with nothing behind it");
    run(put(HEADER_SIX "T,tn_event_wait,1,forever,0,5\n"), 4096, -12, NULL, "the word for a pattern");
    run(put(HEADER_SIX "T,tn_task_sleep,forever,,,forever\n"), 4096, -12, NULL, "in the sixth field, which is not used");
    run(put(HEADER_SIX "T,tn_event_wait,1,1,0,forever1\n"), 4096, -12, NULL, "with a digit behind it at the line's end");
    run(put(HEADER_SIX "T,tn_event_wait,1,1,0,forever\r"), 4096, -12, NULL, "with a CR behind it at the file's end");
    run(put(HEADER_SIX "T,tn_event_wait,1,1,0,Forever"), 4096, -12, NULL, "with a capital at the file's end");
    run(put(HEADER_SIX "T,tn_event_wait,1,1,0,foreve"), 4096, -12, NULL, "cut at the file's end");

    /* the longest file: the last line is cut to fill it */
    n = put(HEADER);
    while (n + 18 <= GRITGARLAND_FILE_MOST) {
        memcpy(file + n, "T,tn_task_exit,,,\n", 18);
        n += 18;
    }
    run(n, GRITGARLAND_ANSWER_MOST, 38938, NULL, "as many calls as fit");
    n = put(HEADER "T,tn_task_create,10,1,1\n");
    while (n + 18 <= GRITGARLAND_FILE_MOST) {
        memcpy(file + n, "I,tn_task_exit,,,\n", 18);
        n += 18;
    }
    run(n, GRITGARLAND_ANSWER_MOST, GRITGARLAND_ANSWER_MOST, NULL, "the longest answer fits");
    run(n, GRITGARLAND_ANSWER_MOST - 1, -2, NULL, "and is not shorter");
    n = put(HEADER);
    while (n + 18 <= GRITGARLAND_FILE_MOST) {
        memcpy(file + n, "T,tn_task_exit,,,\n", 18);
        n += 18;
    }
    memset(file + n, 'x', GRITGARLAND_FILE_MOST + 1 - n);
    run(GRITGARLAND_FILE_MOST, 4096, -(10 + 3641), NULL, "65,536 bytes are read");
    run(GRITGARLAND_FILE_MOST + 1, 4096, -1, NULL, "65,537 bytes are too long");
    run(GRITGARLAND_FILE_MOST + 1, 0, -1, NULL, "too long comes first");

    if (failures == 0)
        printf("lists.c: all as it must be\n");
    return failures != 0;
}
