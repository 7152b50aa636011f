/* What the proved reader says of lines, and lines to ask it about. Lines come on standard input, each ended by LF; a word says what to do.
   edits: writes each line with every small edit; bytes: each with every byte value at every place; five, six, header: writes the number of
   each line that can't be read below that header, or as a header; with a second word each is the end of its file. */
#include "gritgarland.h"
#include "../c/libc.h"

long read(int fd, void *to, size_t n);
long write(int fd, const void *from, size_t n);

static uint8_t input[1 << 23], output[1 << 16], file[GRITGARLAND_FILE_MOST], answer[GRITGARLAND_ANSWER_MOST];
static size_t put_so_far;

static void flush(void)
{
    size_t done = 0;
    while (done < put_so_far) {
        long n = write(1, output + done, put_so_far - done);
        if (n <= 0)
            return;
        done += (size_t)n;
    }
    put_so_far = 0;
}

static void put(const uint8_t *from, size_t n)
{
    if (put_so_far + n > sizeof output)
        flush();
    memcpy(output + put_so_far, from, n);
    put_so_far += n;
}

static void put_byte(uint8_t b)
{
    put(&b, 1);
}

/* the line with the byte at a place left out (cut 1) or not, and another in its place (add) or none */
static void put_edited(const uint8_t *line, size_t n, size_t at, size_t cut, const uint8_t *add)
{
    put(line, at);
    if (add != NULL)
        put(add, 1);
    put(line + at + cut, n - at - cut);
    put_byte('\n');
}

static void put_edits(const uint8_t *line, size_t n, const uint8_t *bytes, size_t count)
{
    for (size_t at = 0; at <= n; at++) {
        if (at < n)
            put_edited(line, n, at, 1, NULL);
        for (size_t i = 0; i < count; i++) {
            put_edited(line, n, at, 0, bytes + i);
            if (at < n)
                put_edited(line, n, at, 1, bytes + i);
        }
    }
}

static void put_number(size_t n)
{
    if (n > 9)
        put_number(n / 10);
    put_byte((uint8_t)('0' + n % 10));
}

static int is_refused(const char *header, const uint8_t *line, size_t n, int ended)
{
    size_t length = 0;
    for (; header[length] != 0; length++)
        file[length] = (uint8_t)header[length];
    if (length + n + 1 > sizeof file)
        return 1;
    memcpy(file + length, line, n);
    length += n;
    if (ended)
        file[length++] = '\n';
    int64_t number = run_list(file, length, answer, sizeof answer);
    return number < 0;
}

static const uint8_t some[] = {0, '\t', '\r', ' ', '"', ',', '-', '0', '1', '9', ';', 'I', 'T', '\\', '_', 0xEF};

int main(int argc, char **argv)
{
    uint8_t all[255]; /* but LF, which ends a line */
    for (size_t i = 0; i < sizeof all; i++)
        all[i] = (uint8_t)(i < '\n' ? i : i + 1);
    size_t length = 0;
    for (long n = 1; n > 0; length += (size_t)n)
        n = read(0, input + length, sizeof input - length);
    char what = argc > 1 ? argv[1][0] : 0;
    const char *header = what == 'f' ? "ctx,service,a,b,c\n" : what == 's' ? "ctx,service,a,b,c,d\n" : "";
    size_t start = 0, number = 0;
    for (size_t end = 0; end < length; end++) {
        if (input[end] != '\n')
            continue;
        number++;
        if (what == 'e')
            put_edits(input + start, end - start, some, sizeof some);
        else if (what == 'b')
            put_edits(input + start, end - start, all, sizeof all);
        else if (is_refused(header, input + start, end - start, argc < 3)) {
            put_number(number);
            put_byte('\n');
        }
        start = end + 1;
    }
    flush();
    return length == sizeof input || start != length;
}
