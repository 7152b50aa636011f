/* The library behind a pipe, for tests on a machine that can't link it: reads requests on standard input and answers each.
   'C': a state and six numbers; 'P': the same, in place; 'S': a state; 'L': two lengths, a file and a buffer. Numbers are little-endian. */
#include "gritgarland.h"
#include "../c/libc.h"

long read(int fd, void *to, size_t n);
long write(int fd, const void *from, size_t n);

enum { MOST = 1 << 18 };

static uint8_t file[MOST], buffer[MOST];

static int take(void *to, size_t n)
{
    uint8_t *p = to;
    while (n > 0) {
        long got = read(0, p, n);
        if (got <= 0)
            return 0;
        p += got;
        n -= (size_t)got;
    }
    return 1;
}

static int give(const void *from, size_t n)
{
    const uint8_t *p = from;
    while (n > 0) {
        long put = write(1, p, n);
        if (put <= 0)
            return 0;
        p += put;
        n -= (size_t)put;
    }
    return 1;
}

static int call(void)
{
    gritgarland_state state;
    uint32_t n[6];
    if (!take(&state, sizeof state) || !take(n, sizeof n))
        return 0;
    gritgarland_reply r = gritgarland_call(state, n[0], n[1], n[2], n[3], n[4], n[5]);
    return give(&r, sizeof r);
}

/* The report and the lent state, which together are laid out as a reply. */
static int call_in_place(void)
{
    gritgarland_state lent;
    uint32_t n[6];
    if (!take(&lent, sizeof lent) || !take(n, sizeof n))
        return 0;
    gritgarland_report r = gritgarland_call_in_place(&lent, n[0], n[1], n[2], n[3], n[4], n[5]);
    return give(&r, sizeof r) && give(&lent, sizeof lent);
}

static int is_sound(void)
{
    gritgarland_state state;
    if (!take(&state, sizeof state))
        return 0;
    uint8_t sound = gritgarland_is_sound(state);
    return give(&sound, 1);
}

static int list(void)
{
    uint32_t n[2];
    if (!take(n, sizeof n) || n[0] > MOST || n[1] > MOST || !take(file, n[0]) || !take(buffer, n[1]))
        return 0;
    int64_t result = run_list(file, n[0], buffer, n[1]);
    return give(&result, sizeof result) && give(buffer, n[1]);
}

int main(void)
{
    char what;
    while (take(&what, 1)) {
        int answered = what == 'C' ? call() : what == 'P' ? call_in_place() : what == 'S' ? is_sound() : what == 'L' ? list() : 0;
        if (!answered)
            return 1;
    }
    return 0;
}
