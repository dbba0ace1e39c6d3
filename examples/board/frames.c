// The frame program over the library: frames on standard input, answers on standard output. `frames` takes each line apart here and
// calls what the frame asks for; `frames feed` has the library read the lines, a thousand bytes more each time. `compare` holds both
// against the monitor.

#include <stdbool.h>
#include <stdio.h>
#include <stdlib.h>
#include <string.h>

#include "chiarumbeta.h"

enum { MOST_BYTES = 66, MOST_DIGITS = 2 * MOST_BYTES };

static struct chiarumbeta machine;

// ---- a line to a frame

static int digit(int sign)
{
    if (sign >= '0' && sign <= '9')
        return sign - '0';
    if (sign >= 'a' && sign <= 'f')
        return sign - 'a' + 10;
    return -1;
}

static bool decode(const char *line, size_t length, uint8_t *bytes)
{
    for (size_t i = 0; i < length; i += 2) {
        int high = digit(line[i]), low = digit(line[i + 1]);
        if (high < 0 || low < 0)
            return false;
        bytes[i / 2] = (uint8_t)(16 * high + low);
    }
    return true;
}

static uint64_t number(const uint8_t *bytes, unsigned count)
{
    uint64_t sum = 0;
    for (unsigned i = 0; i < count; i++)
        sum = sum << 8 | bytes[i];
    return sum;
}

// ---- a frame to its call, and the answer

static void put_status(uint64_t status)
{
    printf("a0%02x\n", (unsigned)status);
}

static void answer_call(const uint8_t *f)
{
    uint64_t x[8], told[CHIARUMBETA_TOLD];
    for (unsigned i = 0; i < 8; i++)
        x[i] = number(f + 2 + 8 * i, 8);
    uint64_t status = chiarumbeta_call(&machine, f[1], x, told);
    if (status != CHIARUMBETA_ACCEPTED) {
        put_status(status);
        return;
    }
    printf("a1%02x%02x", f[1], (unsigned)told[CHIARUMBETA_TOLD_WORLD]);
    for (unsigned i = 0; i < 4; i++)
        printf("%016llx", (unsigned long long)told[CHIARUMBETA_TOLD_X0 + i]);
    printf("\n");
}

static void answer_frame(const uint8_t *f, size_t length)
{
    if (f[0] == 0x20 && length == 66)
        answer_call(f);
    else if (f[0] == 0x21 && length == 2)
        put_status(chiarumbeta_arrive(&machine, f[1]));
    else if (f[0] == 0x10 && length == 5)
        put_status(chiarumbeta_enter_pairs(&machine, f[1], f[2], f[3], f[4]));
    else if (f[0] == 0x11 && length == 12)
        put_status(chiarumbeta_fix_site(&machine, number(f + 1, 8), number(f + 9, 2), f[11]));
    else if (f[0] == 0x12 && length == 6)
        put_status(chiarumbeta_name_pages(&machine, number(f + 1, 2), number(f + 3, 2), f[5]));
    else
        put_status(CHIARUMBETA_UNKNOWN);
}

static void answer_line(const char *line, size_t length)
{
    uint8_t bytes[MOST_BYTES];
    if (length == 0 || length % 2 != 0 || length > MOST_DIGITS || !decode(line, length, bytes))
        put_status(CHIARUMBETA_NO_HEX);
    else
        answer_frame(bytes, length / 2);
}

static void answer_lines(const char *input, size_t length)
{
    const char *end;
    for (size_t at = 0; at < length; at = (size_t)(end - input) + 1) {
        end = memchr(input + at, '\n', length - at);
        if (end == NULL)
            end = input + length;
        answer_line(input + at, (size_t)(end - input) - at);
    }
}

// ---- the same by the library's own reader

static void feed_lines(const char *input, size_t length)
{
    enum { STEP = 1000, ROOM = 1 << 12 };
    static uint8_t out[ROOM];
    size_t at = 0, seen = 0, counts[CHIARUMBETA_COUNTS];
    while (seen < length) {
        seen = length - seen < STEP ? length : seen + STEP;
        do {
            chiarumbeta_feed(&machine, (const uint8_t *)input + at, seen - at, out, ROOM, counts);
            fwrite(out, 1, counts[CHIARUMBETA_COUNTS_PUT], stdout);
            at += counts[CHIARUMBETA_COUNTS_USED];
        } while (counts[CHIARUMBETA_COUNTS_USED] != 0);
    }
}

// All of the input, and a newline behind it where the last line lacks it.
static char *read_all(size_t *length)
{
    size_t room = 1 << 20, count = 0;
    char *input = malloc(room + 1);
    while (input != NULL) {
        size_t n = fread(input + count, 1, room - count, stdin);
        count += n;
        if (n == 0)
            break;
        if (count == room)
            input = realloc(input, (room *= 2) + 1);
    }
    if (input == NULL)
        exit(1);
    if (count > 0 && input[count - 1] != '\n')
        input[count++] = '\n';
    *length = count;
    return input;
}

int main(int count, char **words)
{
    size_t length;
    char *input = read_all(&length);
    chiarumbeta_fresh(&machine);
    if (count > 1 && strcmp(words[1], "feed") == 0)
        feed_lines(input, length);
    else
        answer_lines(input, length);
    free(input);
    return 0;
}
