/* A refused call leaves every byte of the state that it is lent, and an accepted one leaves none undefined: random calls on random
   states, numbers that name nothing, states with each byte damaged in turn, states of random bytes, a state that can't be written.
   Every code by which a service may refuse (docs/SERVICES.md) must have come up from several states, and no other. */
#include "gritgarland.h"
#include "libc.h"
#include "same.h"

enum { SERVICES = 41, CODES = 13, NUMBERS = 4, ROUNDS = 120, CALLS = 200, TIMES = 5, KEPT = 3 };

#define BY(code) (1u << -(code))
#define RANGE BY(GRITGARLAND_WRONG_PARAM)
#define EXISTS (RANGE | BY(GRITGARLAND_NOEXS))
#define COUNTS (EXISTS | BY(GRITGARLAND_OVERFLOW))
#define EMPTY (EXISTS | BY(GRITGARLAND_TIMEOUT))
#define OCCUPIED BY(GRITGARLAND_ILUSE)

/* the codes by which each service refuses, beside WCONTEXT and UNSOUND, by which all do */
static const uint32_t refuses[SERVICES + 1] = {
    RANGE, RANGE, EXISTS, COUNTS, COUNTS, 0, EXISTS, COUNTS | BY(GRITGARLAND_WSTATE), EXISTS | BY(GRITGARLAND_WSTATE), RANGE, COUNTS, COUNTS,
    EXISTS, EXISTS, EXISTS, RANGE, 0,
    RANGE, EXISTS, COUNTS, COUNTS, EXISTS, EMPTY, EMPTY,
    RANGE, EXISTS, EXISTS, EXISTS, EXISTS, EXISTS, EXISTS | OCCUPIED, EMPTY | OCCUPIED, EMPTY | OCCUPIED, EXISTS,
    RANGE, EXISTS, EXISTS, EMPTY, EMPTY, EXISTS, EMPTY, EMPTY};

static int failures;
static struct {
    uint8_t front[60];
    gritgarland_state state;
    uint8_t back[64];
} lent;
static gritgarland_state kept[KEPT];
static uint32_t times[SERVICES + 1][CODES], last[SERVICES + 1][CODES];
static uint32_t accepted, seed = 2463534242u;

static void expect(int holds, const char *what, uint32_t service)
{
    if (!holds && failures++ < 20)
        printf("untouched.c: service %u: %s\n", service, what);
}

static uint32_t chance(uint32_t below)
{
    seed ^= seed << 13;
    seed ^= seed >> 17;
    seed ^= seed << 5;
    return (uint32_t)(((uint64_t)seed * below) >> 32);
}

/* what a call may find on the stack, where it leaves room for its own */
__attribute__((noinline)) static void litter(uint64_t word)
{
    volatile uint64_t stack[4000]; /* more than a call takes */
    for (size_t i = 0; i < 4000; i++)
        stack[i] = word;
    (void)stack[0];
}

static uint32_t sum(const gritgarland_state *s)
{
    static uint32_t words[sizeof *s / 4];
    uint32_t n = 2166136261u;
    memcpy(words, s, sizeof words);
    for (size_t i = 0; i < sizeof *s / 4; i++)
        n = (n ^ words[i]) * 16777619u;
    return n;
}

static int spares_are_zero(const gritgarland_state *s)
{
    uint32_t any = 0;
    for (size_t t = 0; t < 25; t++)
        any |= s->tasks[t].spare | (uint32_t)s->tasks[t].wait.spare;
    return any == 0;
}

static int all_are(const uint8_t *bytes, size_t n, uint8_t byte)
{
    for (size_t i = 0; i < n; i++)
        if (bytes[i] != byte)
            return 0;
    return 1;
}

/* One call on the lent state: each byte of it, and of what stands around it. */
static gritgarland_report ask(uint32_t context, uint32_t service, const uint32_t *n)
{
    static gritgarland_state before;
    static gritgarland_reply q;
    before = lent.state;
    memset(lent.front, 0x5a, sizeof lent.front);
    memset(lent.back, 0x5a, sizeof lent.back);
    litter(UINT64_C(0xa5a5a5a5a5a5a5a5));
    gritgarland_report r = gritgarland_call_in_place(&lent.state, context, service, n[0], n[1], n[2], n[3]);
    litter(UINT64_C(0x3c3c3c3c3c3c3c3c));
    q = gritgarland_call(before, context, service, n[0], n[1], n[2], n[3]);
    expect(all_are(lent.front, sizeof lent.front, 0x5a) && all_are(lent.back, sizeof lent.back, 0x5a), "a byte beside the state is altered", service);
    expect(r.code == q.code && r.running == q.running && r.value == q.value, "by value it answers otherwise", service);
    expect(same(&lent.state, &q.state), "by value a byte of the state is another", service);
    expect((r.code == GRITGARLAND_UNSOUND) == !gritgarland_is_sound(before), "UNSOUND, or not", service);
    if (r.code >= 0) {
        accepted++;
        expect(spares_are_zero(&lent.state), "an accepted call leaves a spare byte that is not 0", service);
        return r;
    }
    expect(same(&before, &lent.state), "a refusal alters a byte of the state", service);
    expect(r.value == 0 && (r.code != GRITGARLAND_UNSOUND || r.running == 0), "a refusal's value and task", service);
    expect(r.code > -CODES, "a code that is none", service);
    if (service > SERVICES || context > GRITGARLAND_I || r.code <= -CODES)
        return r;
    uint32_t now = sum(&before);
    if (times[service][-r.code] == 0 || last[service][-r.code] != now)
        times[service][-r.code]++;
    last[service][-r.code] = now;
    return r;
}

/* often a small one from `least` on, now and then any */
static uint32_t number(uint32_t least, uint32_t width)
{
    static const uint32_t edges[] = {8, 9, 12, 13, 24, 25, 30, 31, 1000, 1001, 65535, 65536, UINT32_MAX};
    switch (chance(16)) {
    case 0: return 0;
    case 1: return chance(32);
    case 2: return edges[chance(sizeof edges / sizeof edges[0])];
    default: return least + chance(width);
    }
}

static void numbers(uint32_t *n)
{
    n[0] = number(1, 2);
    n[1] = number(1, 3);
    n[2] = number(0, 2);
    n[3] = number(1, 3);
}

static void random_call(void)
{
    static const uint32_t nothing[] = {2, 3, 255, 256, 257, 65536, UINT32_MAX};
    uint32_t n[NUMBERS];
    numbers(n);
    uint32_t context = chance(50) == 0 ? nothing[chance(7)] : chance(2);
    uint32_t service = chance(50) == 0 ? SERVICES - 2 + nothing[chance(6)] : chance(SERVICES + 1);
    if ((service == GRITGARLAND_TASK_DELETE || service == GRITGARLAND_SEM_DELETE || service == GRITGARLAND_EVENT_DELETE || service == GRITGARLAND_QUEUE_DELETE) &&
        chance(4) != 0)
        service--; /* so that more is created than deleted */
    gritgarland_report r = ask(context, service, n);
    expect(r.code != GRITGARLAND_UNSOUND, "a state that calls led to is unsound", service);
    if (context > 1 || service == 0 || service > SERVICES)
        expect(r.code == GRITGARLAND_WRONG_PARAM, "a number that names nothing", service);
}

/* tasks 1 to 6, a semaphore, a data queue without capacity and a SINGLE flag */
static void set_up(void)
{
    for (uint32_t task = 1; task <= 6; task++)
        ask(GRITGARLAND_T, GRITGARLAND_TASK_CREATE, (uint32_t[NUMBERS]){task, 1 + chance(3), 1, 0});
    ask(GRITGARLAND_T, GRITGARLAND_SEM_CREATE, (uint32_t[NUMBERS]){1, 0, 2, 0});
    ask(GRITGARLAND_T, GRITGARLAND_QUEUE_CREATE, (uint32_t[NUMBERS]){1, 0, 0, 0});
    ask(GRITGARLAND_T, GRITGARLAND_EVENT_CREATE, (uint32_t[NUMBERS]){1, GRITGARLAND_ATTR_SINGLE, 0, 0});
    ask(GRITGARLAND_T, GRITGARLAND_EVENT_WAIT, (uint32_t[NUMBERS]){1, 8, GRITGARLAND_OR, GRITGARLAND_ENDLESS});
}

static void random_calls(void)
{
    for (uint32_t round = 0; round < ROUNDS; round++) {
        lent.state = gritgarland_fresh();
        if (round % 2 == 1)
            set_up();
        for (uint32_t i = 0; i < CALLS; i++)
            random_call();
        kept[round % KEPT] = lent.state;
    }
}

static void every_service(void)
{
    for (uint32_t service = 0; service <= SERVICES + 1; service++) {
        uint32_t n[NUMBERS] = {1 + chance(3), 1 + chance(3), chance(2), 1};
        gritgarland_report r = ask(chance(3), service, n);
        expect(r.code == GRITGARLAND_UNSOUND && r.running == 0, "an unsound state is answered otherwise", service);
    }
}

/* place 0 of a table, or a spare byte: no sound state has another number there */
static int must_be_zero(size_t at)
{
    static const size_t first[] = {offsetof(gritgarland_numbers, slices), offsetof(gritgarland_numbers, counts), offsetof(gritgarland_numbers, maxima),
        offsetof(gritgarland_numbers, attributes), offsetof(gritgarland_numbers, bits), offsetof(gritgarland_numbers, capacities),
        offsetof(gritgarland_numbers, taken)};
    size_t in_task = at % sizeof(gritgarland_task);
    if (at < offsetof(gritgarland_state, levels))
        return at < sizeof(gritgarland_task) || in_task == 7 || in_task == 11;
    if (at < offsetof(gritgarland_state, numbers))
        return at < offsetof(gritgarland_state, levels) + 24 || (at >= offsetof(gritgarland_state, waits) && at < offsetof(gritgarland_state, waits) + 24);
    for (size_t i = 0; i < sizeof first / sizeof first[0]; i++)
        if (at - offsetof(gritgarland_state, numbers) - first[i] < 4)
            return 1;
    return at - offsetof(gritgarland_state, numbers.elements) < 4 * GRITGARLAND_CAPACITY_MOST;
}

static void damaged(const gritgarland_state *whole)
{
    static const uint8_t changes[] = {1, 128, 255};
    uint8_t *bytes = (uint8_t *)&lent.state;
    uint32_t unsound = 0;
    for (size_t at = 0; at < sizeof *whole; at++)
        for (size_t i = 0; i < sizeof changes; i++) {
            uint32_t n[NUMBERS];
            uint32_t service = (uint32_t)(3 * at + i) % (SERVICES + 2);
            numbers(n);
            lent.state = *whole;
            bytes[at] ^= changes[i];
            int32_t code = ask(chance(2), service, n).code;
            unsound += code == GRITGARLAND_UNSOUND;
            expect(!must_be_zero(at) || code == GRITGARLAND_UNSOUND, "a byte that must be zero is not looked at", service);
        }
    expect(unsound > 2 * sizeof *whole, "most damaged states are unsound", 0);
}

static void random_bytes(void)
{
    uint8_t *bytes = (uint8_t *)&lent.state;
    for (int i = 0; i < 20; i++) {
        for (size_t at = 0; at < sizeof lent.state; at++)
            bytes[at] = (uint8_t)(i == 0 ? 255 : chance(256));
        every_service();
    }
}

/* Here a refused call that stores anything, be it what stood there, ends this program. */
static void read_only(void)
{
    static const gritgarland_state fresh = {.tasks = {{.base = 0}}};
    static const gritgarland_state broken = {.tasks[1].wakeups = 2};
    for (uint32_t service = 0; service <= SERVICES + 1; service++) {
        expect(gritgarland_call_in_place((gritgarland_state *)&fresh, 2, service, 1, 1, 1, 1).code == GRITGARLAND_WRONG_PARAM, "context 2", service);
        expect(gritgarland_call_in_place((gritgarland_state *)&broken, 0, service, 1, 1, 1, 1).code == GRITGARLAND_UNSOUND, "two wakeups", service);
    }
    expect(gritgarland_task_sleep((gritgarland_state *)&fresh, GRITGARLAND_T, 1).code == GRITGARLAND_WCONTEXT, "nobody runs", GRITGARLAND_TASK_SLEEP);
    expect(gritgarland_sem_signal((gritgarland_state *)&fresh, GRITGARLAND_T, 1).code == GRITGARLAND_NOEXS, "no semaphore", GRITGARLAND_SEM_SIGNAL);
}

int main(void)
{
    random_calls();
    expect(accepted > ROUNDS * CALLS / 8, "few calls were accepted", 0);
    lent.state = gritgarland_fresh();
    kept[0] = lent.state;
    for (int i = 0; i < KEPT; i++)
        damaged(&kept[i]);
    random_bytes();
    for (uint32_t service = 1; service <= SERVICES; service++)
        for (uint32_t code = 1; code < CODES; code++) {
            int may = ((refuses[service] | BY(GRITGARLAND_WCONTEXT) | BY(GRITGARLAND_UNSOUND)) >> code) & 1;
            expect(may || times[service][code] == 0, "refuses by a code that is not its own", service);
            expect(!may || times[service][code] >= TIMES, "a code of its own did not come up from several states", service);
        }
    if (failures == 0) /* before the last test, which may end the program */
        read_only();
    if (failures == 0)
        printf("untouched.c: all as it must be\n");
    return failures != 0;
}
