/* What `heat-meter dry` does on `pulse` lines, as a plain C program: the
 * yardstick of bench/dry-pulses.
 *
 * Reads lines `pulse N` from standard input, N from 1 to 10^15 in decimal
 * digits with no leading zero. Adds up the pulses at 10 litres each, and puts
 * `ok K VOL 0 0` for each line, by one write each: K counts the lines, VOL is
 * the volume in litres, and no energy has been counted. A last line need not
 * end with a line feed. Ends with 0, or at the first fault with 4 (a line),
 * 6 (reading) or 7 (writing), and a line on standard error.
 *
 * Numbers are read and written by loops of its own: snprintf and strtoull
 * would take most of the time. */

#include <errno.h>
#include <stdbool.h>
#include <stdint.h>
#include <stdio.h>
#include <string.h>
#include <unistd.h>

enum { LITRES_PER_PULSE = 10, LINE_MAX_BYTES = 120, LINES_MAX = 1000000 };

static const uint64_t PULSES_MAX = 1000000000000000; /* 10^15 */

enum ending { DONE = 0, LINE_FAULT = 4, READ_FAULT = 6, WRITE_FAULT = 7 };

struct meter {
    uint64_t lines;
    uint64_t pulses;
};

/* Reads `pulse N`, all of the line. */
static bool read_pulses(const char *line, size_t length, uint64_t *pulses)
{
    static const char word[] = "pulse ";
    const size_t start = sizeof word - 1;

    if (length <= start || memcmp(line, word, start) != 0 || line[start] == '0')
        return false;
    uint64_t value = 0;
    for (size_t at = start; at < length; at++) {
        unsigned digit = (unsigned char)line[at] - '0';
        if (digit > 9)
            return false;
        value = value * 10 + digit;
        if (value > PULSES_MAX)
            return false;
    }
    *pulses = value;
    return true;
}

/* Writes the digits of value at `to`, and returns where they end. */
static char *put_number(char *to, uint64_t value)
{
    char digits[20];
    size_t first = sizeof digits;

    do {
        digits[--first] = (char)('0' + value % 10);
        value /= 10;
    } while (value != 0);
    memcpy(to, digits + first, sizeof digits - first);
    return to + (sizeof digits - first);
}

static bool write_all(const char *bytes, size_t length)
{
    while (length > 0) {
        ssize_t wrote = write(STDOUT_FILENO, bytes, length);
        if (wrote < 0) {
            if (errno == EINTR)
                continue;
            return false;
        }
        bytes += wrote;
        length -= (size_t)wrote;
    }
    return true;
}

static enum ending take_line(struct meter *meter, const char *line, size_t length)
{
    uint64_t pulses;

    if (meter->lines == LINES_MAX || length > LINE_MAX_BYTES || !read_pulses(line, length, &pulses)
        || pulses > PULSES_MAX - meter->pulses)
        return LINE_FAULT;
    meter->lines++;
    meter->pulses += pulses;

    char answer[64];
    char *end = answer;
    memcpy(end, "ok ", 3);
    end = put_number(end + 3, meter->lines);
    *end++ = ' ';
    end = put_number(end, meter->pulses * LITRES_PER_PULSE);
    memcpy(end, " 0 0\n", 5);
    end += 5;
    return write_all(answer, (size_t)(end - answer)) ? DONE : WRITE_FAULT;
}

static enum ending run(struct meter *meter)
{
    static char held[1 << 16];
    size_t length = 0;

    for (;;) {
        ssize_t got = read(STDIN_FILENO, held + length, sizeof held - length);
        if (got < 0) {
            if (errno == EINTR)
                continue;
            return READ_FAULT;
        }
        if (got == 0)
            return length == 0 ? DONE : take_line(meter, held, length);
        length += (size_t)got;

        const char *line = held, *const past = held + length, *feed;
        while ((feed = memchr(line, '\n', (size_t)(past - line))) != NULL) {
            enum ending ending = take_line(meter, line, (size_t)(feed - line));
            if (ending != DONE)
                return ending;
            line = feed + 1;
        }
        length = (size_t)(past - line);
        if (length > LINE_MAX_BYTES)
            return LINE_FAULT;
        memmove(held, line, length);
    }
}

int main(void)
{
    struct meter meter = {0, 0};
    enum ending ending = run(&meter);

    if (ending == LINE_FAULT)
        fprintf(stderr, "line %llu: refused\n", (unsigned long long)meter.lines + 1);
    else if (ending != DONE)
        fprintf(stderr, "%s fault\n", ending == READ_FAULT ? "read" : "write");
    return ending;
}
