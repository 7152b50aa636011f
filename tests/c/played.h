/* The board that tests/c/board.c plays under the shim: one processor with a mask, tasks that begin when they are first switched to, and
   interrupts that come while others run, or in the middle of a call, where the mask holds them back. */
#ifndef TESTS_PLAYED_H
#define TESTS_PLAYED_H

#include "board.h"
#include "libc.h"

typedef void happening(void);

static int failures;
static uint32_t masked; /* 1: interrupts are masked */
static bool in_interrupt, relays, halted;
static happening *const *to_come; /* what happens while others run, ending in NULL */
static happening *during;         /* an interrupt that comes in the middle of the next call */
static happening *waiting;        /* and is held back by the mask */
static happening *bodies[3];      /* of the tasks, until they begin */
static uint32_t switches, delivered;

static void expect(int holds, const char *what)
{
    if (!holds) {
        printf("board.c: %s\n", what);
        failures++;
    }
}

/* ---- the board */
static void deliver(happening *interrupt)
{
    expect(masked == 0 && !in_interrupt, "an interrupt comes through the mask");
    in_interrupt = true;
    masked = 1;
    delivered++;
    interrupt();
    expect(masked == 1, "a call in an interrupt opens the mask");
    in_interrupt = false;
    masked = 0;
}

uint32_t board_mask(void)
{
    uint32_t before = masked;
    masked = 1;
    if (during != NULL)
        waiting = during;
    during = NULL;
    return before;
}

void board_unmask(uint32_t before)
{
    happening *held = waiting;
    masked = before;
    if (before == 0 && held != NULL) {
        waiting = NULL;
        deliver(held);
    }
}

/* Lets others run until `from` does: a task that has not begun begins here, and the rest is interrupts. */
void board_switch(uint32_t from, uint32_t to)
{
    uint32_t mask = masked;
    expect(to == current && from != to, "who is switched to");
    switches++;
    if (in_interrupt)
        return;
    masked = 0;
    while (current != from && !halted) {
        happening *held = waiting, *body = bodies[current];
        waiting = NULL;
        if (held != NULL)
            deliver(held);
        else if (bodies[current] = NULL, body != NULL)
            body();
        else if (*to_come != NULL)
            deliver(*to_come++);
        else
            break;
    }
    masked = mask;
}

void board_relays_off(void)
{
    relays = false;
}

void board_halt(void)
{
    expect(!relays, "it halts with the relays on");
    halted = true;
}

static void power_on(void)
{
    static happening *const nothing[] = {NULL};
    kernel = gritgarland_fresh();
    current = masked = switches = delivered = 0;
    started = stopped = in_interrupt = relays = halted = false;
    during = waiting = bodies[0] = bodies[RELAY_TASK] = bodies[SCREEN_TASK] = NULL;
    to_come = nothing;
}

#endif
