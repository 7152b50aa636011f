/* Data queues from C, on the one state that is lent: elements come out in the order in which they were accepted, each once, whoever waits;
   the element at once in the report's value, after a wait in the record. With the two plays that the rules work out, V12 and V13. */
#include "gritgarland.h"
#include "libc.h"
#include "same.h"

static int failures;
static gritgarland_state s;

static void expect(int holds, const char *what)
{
    if (!holds) {
        printf("queues.c: %s\n", what);
        failures++;
    }
}

static void done(gritgarland_report r, int32_t code, uint32_t running, uint32_t value, const char *what)
{
    expect(r.code == code, what);
    expect(r.running == running, what);
    expect(r.value == value, what);
    expect(gritgarland_is_sound(s), what);
}

static void receives(uint32_t queue, uint32_t running, uint32_t element, const char *what)
{
    done(gritgarland_queue_ireceive(&s, GRITGARLAND_I, queue), GRITGARLAND_NO_ERR, running, element, what);
}

/* Queue 1 with this capacity; so many tasks at level 5, of which task 1 runs. */
static void set_up(uint32_t capacity, uint32_t tasks)
{
    s = gritgarland_fresh();
    done(gritgarland_queue_create(&s, GRITGARLAND_T, 1, capacity), GRITGARLAND_NO_ERR, 0, 0, "create a queue");
    for (uint32_t task = 1; task <= tasks; task++)
        done(gritgarland_task_create(&s, GRITGARLAND_T, task, 5, 1), GRITGARLAND_NO_ERR, 1, 0, "create a task");
}

/* V12: without capacity a poll takes the element from the hand of a waiting sender. */
static void without_capacity(void)
{
    set_up(0, 1);
    done(gritgarland_queue_send(&s, GRITGARLAND_T, 1, 77, GRITGARLAND_ENDLESS), GRITGARLAND_PENDING, 0, 0, "V12: the sender waits");
    done(gritgarland_queue_receive_polling(&s, GRITGARLAND_T, 1), GRITGARLAND_NO_ERR, 1, 77, "V12: start-up code polls");
    expect(s.tasks[1].code == 0 && s.tasks[1].handed == 0 && s.waits[21].places[0] == 0, "V12: the sender is done");
    done(gritgarland_queue_send_polling(&s, GRITGARLAND_T, 1, 78), GRITGARLAND_TIMEOUT, 1, 0, "nobody waits for one");
    done(gritgarland_queue_receive_polling(&s, GRITGARLAND_T, 1), GRITGARLAND_TIMEOUT, 1, 0, "nor with one");
    done(gritgarland_queue_receive(&s, GRITGARLAND_T, 1, GRITGARLAND_ENDLESS), GRITGARLAND_PENDING, 0, 0, "the other way round");
    done(gritgarland_queue_isend_polling(&s, GRITGARLAND_I, 1, 79), GRITGARLAND_NO_ERR, 1, 0, "a poll hands over");
    expect(s.tasks[1].handed == 79 && gritgarland_wait_code(s.tasks[1].code) == GRITGARLAND_NO_ERR, "to the record");
}

/* V13: the oldest comes out, and the element of the first sender goes in. */
static void full(void)
{
    set_up(1, 1);
    done(gritgarland_queue_send(&s, GRITGARLAND_T, 1, 7, GRITGARLAND_ENDLESS), GRITGARLAND_NO_ERR, 1, 0, "V13: stored");
    done(gritgarland_queue_send(&s, GRITGARLAND_T, 1, 8, GRITGARLAND_ENDLESS), GRITGARLAND_PENDING, 0, 0, "V13: waits");
    receives(1, 1, 7, "V13: the oldest");
    expect(s.numbers.taken[1] == 1 && s.numbers.elements[1][0] == 8 && s.tasks[1].code == 0, "V13: the other is stored");
}

/* several senders, one of whom gives up in the middle, and one who is suspended */
static void in_order(void)
{
    set_up(2, 5);
    for (uint32_t i = 0; i < 2; i++)
        done(gritgarland_queue_send(&s, GRITGARLAND_T, 1, 20 + i, 1), GRITGARLAND_NO_ERR, 1, 0, "two fit");
    for (uint32_t i = 0; i < 4; i++)
        done(gritgarland_queue_send(&s, GRITGARLAND_T, 1, 22 + i, i == 1 ? 1 : 9), GRITGARLAND_PENDING, i + 2, 0, "four wait");
    done(gritgarland_task_suspend(&s, GRITGARLAND_T, 3), GRITGARLAND_NO_ERR, 5, 0, "task 3 is suspended as well");
    done(gritgarland_tick_int_processing(&s, GRITGARLAND_I), GRITGARLAND_NO_ERR, 5, 0, "task 2 gives up");
    expect(gritgarland_wait_code(s.tasks[2].code) == GRITGARLAND_TIMEOUT && s.tasks[2].wait.pattern == 0, "and takes its element back");
    static const uint32_t out[] = {20, 21, 22, 24, 25};
    for (size_t i = 0; i < sizeof out / sizeof out[0]; i++)
        receives(1, 5, out[i], "in the order accepted");
    expect(s.tasks[3].suspended == 1 && s.tasks[3].wait.kind == 0 && s.tasks[3].code == 0, "task 3 was served in its place");
    done(gritgarland_queue_ireceive(&s, GRITGARLAND_I, 1), GRITGARLAND_TIMEOUT, 5, 0, "each once");
}

/* the places are used again and again: three rounds and more of every capacity, one element in and one out */
static void round_and_round(void)
{
    for (uint32_t capacity = 1; capacity <= GRITGARLAND_CAPACITY_MOST; capacity++) {
        uint32_t in = 0, out = 0;
        set_up(capacity, 1);
        while (out < 3 * capacity) {
            while (gritgarland_queue_send_polling(&s, GRITGARLAND_T, 1, in).code == GRITGARLAND_NO_ERR)
                in++;
            expect(in - out == capacity && s.numbers.taken[1] == capacity, "it takes what it has room for");
            receives(1, 1, out++, "the oldest comes out");
        }
        while (out < in)
            receives(1, 1, out++, "and so do the others");
        for (uint32_t place = 0; place < GRITGARLAND_CAPACITY_MOST; place++)
            expect(s.numbers.elements[1][place] == 0, "no element is left");
    }
}

/* who waits on a queue that is deleted, and what was stored in it */
static void deletion(void)
{
    set_up(1, 3);
    gritgarland_queue_send(&s, GRITGARLAND_T, 1, 30, 1);
    done(gritgarland_queue_send(&s, GRITGARLAND_T, 1, 31, 9), GRITGARLAND_PENDING, 2, 0, "task 1 waits");
    done(gritgarland_queue_send(&s, GRITGARLAND_T, 1, 32, 9), GRITGARLAND_PENDING, 3, 0, "task 2 waits");
    done(gritgarland_queue_delete(&s, GRITGARLAND_T, 1), GRITGARLAND_NO_ERR, 3, 0, "the queue is deleted");
    expect(s.levels[5].places[1] == 1 && s.levels[5].places[2] == 2, "in the order of its queue");
    for (uint32_t task = 1; task <= 2; task++)
        expect(gritgarland_wait_code(s.tasks[task].code) == GRITGARLAND_DLT && s.tasks[task].handed == 0, "they are told");
    done(gritgarland_queue_receive(&s, GRITGARLAND_T, 1, 1), GRITGARLAND_NOEXS, 3, 0, "it is gone");
    done(gritgarland_queue_create(&s, GRITGARLAND_T, 1, 0), GRITGARLAND_NO_ERR, 3, 0, "and created anew");
    done(gritgarland_queue_receive_polling(&s, GRITGARLAND_T, 1), GRITGARLAND_TIMEOUT, 3, 0, "without its elements");
}

/* a receiver beside a stored element or a sender, and a sender beside free room: no sound state has them */
static void soundness(void)
{
    set_up(2, 2);
    done(gritgarland_queue_receive(&s, GRITGARLAND_T, 1, 9), GRITGARLAND_PENDING, 2, 0, "task 1 receives");
    done(gritgarland_queue_receive(&s, GRITGARLAND_T, 1, 9), GRITGARLAND_PENDING, 0, 0, "task 2 too");
    gritgarland_state receivers = s;
    s.numbers.taken[1] = 1;
    expect(!gritgarland_is_sound(s), "beside a stored element");
    s = receivers;
    s.tasks[2].wait.kind = 4;
    expect(!gritgarland_is_sound(s), "beside a waiting sender");
    s = receivers;
    s.tasks[1].wait.kind = s.tasks[2].wait.kind = 4;
    expect(!gritgarland_is_sound(s), "senders beside free room");
    gritgarland_state before = s;
    gritgarland_report r = gritgarland_queue_ireceive(&s, GRITGARLAND_I, 1);
    expect(r.code == GRITGARLAND_UNSOUND && r.running == 0 && r.value == 0 && same(&s, &before), "it is refused, and stays as it is");
    s.numbers.capacities[1] = 1;
    expect(gritgarland_is_sound(s), "senders without capacity");
    s.tasks[2].wait.pattern = 99;
    receives(1, 1, 0, "the element of the first, which is 0");
    receives(1, 1, 99, "and of the second");
}

int main(void)
{
    without_capacity();
    full();
    in_order();
    round_and_round();
    deletion();
    soundness();
    if (failures == 0)
        printf("queues.c: all as it must be\n");
    return failures != 0;
}
