/* What the headers add to the library's calls: the fresh state byte by byte, wait codes with their sign, names that are never null,
   and a version whose number and text agree. tests/services.sh has every name, tests/headers.sh every compiler. */
#include "gritgarland.h"
#include "libc.h"

static int failures;

static void expect(int holds, const char *what)
{
    if (!holds) {
        printf("header.c: %s\n", what);
        failures++;
    }
}

static void fresh(void)
{
    gritgarland_state s;
    memset(&s, 255, sizeof s);
    s = gritgarland_fresh();
    const uint8_t *bytes = (const uint8_t *)&s;
    uint8_t any = 0;
    for (size_t i = 0; i < sizeof s; i++)
        any |= bytes[i];
    expect(any == 0, "a byte of the fresh state is not zero");
    expect(gritgarland_is_sound(s), "the fresh state is sound");
    expect(gritgarland_task_create(&s, GRITGARLAND_T, 1, 5, 1).running == 1 && s.tasks[1].base == 5, "a task on the fresh state");
}

/* a semaphore wait that ends in each of the four ways, by what its task's record keeps */
static void waits(void)
{
    static const struct {
        uint32_t context, service, a;
        int32_t code;
    } ends[] = {
        {GRITGARLAND_I, GRITGARLAND_SEM_ISIGNAL, 1, GRITGARLAND_NO_ERR},
        {GRITGARLAND_I, GRITGARLAND_TICK_INT_PROCESSING, 0, GRITGARLAND_TIMEOUT},
        {GRITGARLAND_T, GRITGARLAND_SEM_DELETE, 1, GRITGARLAND_DLT},
        {GRITGARLAND_I, GRITGARLAND_TASK_IRELEASE_WAIT, 1, GRITGARLAND_RELEASED},
    };
    for (size_t i = 0; i < sizeof ends / sizeof ends[0]; i++) {
        gritgarland_state s = gritgarland_fresh();
        gritgarland_sem_create(&s, GRITGARLAND_T, 1, 0, 1);
        gritgarland_task_create(&s, GRITGARLAND_T, 1, 5, 1);
        expect(gritgarland_sem_acquire(&s, GRITGARLAND_T, 1, 1).code == GRITGARLAND_PENDING, "a wait");
        expect(gritgarland_wait_code(s.tasks[1].code) == 0, "0 while it lasts");
        gritgarland_report r = gritgarland_call_in_place(&s, ends[i].context, ends[i].service, ends[i].a, 0, 0, 0);
        expect(r.code == GRITGARLAND_NO_ERR && r.running == 1, "its end");
        expect(gritgarland_wait_code(s.tasks[1].code) == ends[i].code, "how it ended");
    }
    for (int32_t kept = 0; kept < 256; kept++)
        expect(gritgarland_wait_code((uint8_t)kept) == -kept, "a kept number with its sign");
}

static void names(void)
{
    int named = 0;
    for (int32_t code = -70000; code <= 70000; code++) {
        const char *name = gritgarland_code_name(code);
        expect(name != NULL, "a code without words");
        named += name != NULL && name[0] != 'n';
    }
    expect(named == 12, "twelve codes have names");
    named = 0;
    for (uint32_t service = 0; service <= 70000; service++) {
        const char *name = gritgarland_service_name(service);
        expect(name != NULL, "a service without words");
        named += name != NULL && name[0] != 'n';
    }
    expect(named == 41, "41 services have names");
    expect(gritgarland_code_name(INT32_MIN)[0] == 'n' && gritgarland_code_name(INT32_MAX)[0] == 'n', "the outermost codes");
}

#if GRITGARLAND_VERSION < 41000
#error "the version can't be compared"
#endif

static void version(void)
{
    const char *text = GRITGARLAND_VERSION_STRING;
    int32_t number = 0, part = 0;
    for (size_t i = 0; i < sizeof GRITGARLAND_VERSION_STRING; i++)
        if (text[i] >= '0' && text[i] <= '9')
            part = 10 * part + (text[i] - '0');
        else {
            number = 100 * number + part;
            part = 0;
        }
    expect(number == GRITGARLAND_VERSION, "the version's number and its text");
}

int main(void)
{
    fresh();
    waits();
    names();
    version();
    if (failures == 0)
        printf("header.c: all as it must be\n");
    return failures != 0;
}
