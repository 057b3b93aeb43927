/* What a session costs without its parsing: reads pieces through their closing lines, appends each to a file, syncs
 * it, and writes an answer of the same length as a session's. With `group`, all pieces that one read brought are
 * appended, then synced once, and then answered by one write. For bench/session_rates.py and bench/group_rates.py.
 *
 *     append FILE [group] < pieces > answers
 */
#include <fcntl.h>
#include <stdio.h>
#include <string.h>
#include <unistd.h>

enum { SPACE = 1 << 20 };

static char buffer[SPACE];

/* Writes all bytes, or returns -1. */
static int write_all(int file, const char *bytes, size_t length)
{
    while (length > 0) {
        ssize_t done = write(file, bytes, length);
        if (done <= 0)
            return -1;
        bytes += done;
        length -= (size_t)done;
    }
    return 0;
}

/* The length of the first piece, or 0 if none is closed. */
static size_t piece_length(const char *bytes, size_t length)
{
    const char *at = bytes, *end = bytes + length;
    while (at < end) {
        const char *feed = memchr(at, '\n', (size_t)(end - at));
        if (!feed)
            return 0;
        if (feed - at == 3 && memcmp(at, "...", 3) == 0)
            return (size_t)(feed + 1 - bytes);
        at = feed + 1;
    }
    return 0;
}

/* The answers that are not written yet. */
static char answers[SPACE];
static size_t answered;

static int flush_answers(int file)
{
    size_t length = answered;
    answered = 0;
    return length > 0 && (fdatasync(file) || write_all(1, answers, length));
}

int main(int count, char **words)
{
    size_t held = 0;
    unsigned long number = 0;
    int grouped = count == 3 && strcmp(words[2], "group") == 0;
    int file = count == 2 + grouped ? open(words[1], O_WRONLY | O_CREAT | O_APPEND, 0644) : -1;
    if (file < 0)
        return 2;
    for (;;) {
        size_t start = 0, length;
        ssize_t taken = read(0, buffer + held, (grouped ? 65536 : sizeof buffer) - held);
        if (taken <= 0)
            return taken == 0 ? 0 : 1;
        held += (size_t)taken;
        while ((length = piece_length(buffer + start, held - start)) > 0) {
            answered += (size_t)sprintf(answers + answered, "---\nok: \"%lu\"\n...\n", ++number);
            if (write_all(file, buffer + start, length) || (!grouped && flush_answers(file)))
                return 1;
            start += length;
        }
        if (flush_answers(file))
            return 1;
        memmove(buffer, buffer + start, held - start);
        held -= start;
    }
}
