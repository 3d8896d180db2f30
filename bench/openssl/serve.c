/* A service over a journal, as `dukpt serve --journal` is one: the frames that a read ends are answered
   in groups, and the payments of a group are kept before its answers are written. */
#include "journal.h"

#include <stdio.h>
#include <string.h>
#include <unistd.h>

enum { READ = 65536 };

struct service {
    struct journal journal;
    struct numbers *numbers;
    struct group group;
    uint8_t answers[GROUP * LONGEST];
    /* The bytes of a frame that is not whole yet, and a read behind them. */
    uint8_t input[LONGEST + 2 + READ];
    size_t held;
};

static int fail(const char *line)
{
    fprintf(stderr, "serve: %s\n", line);
    return 1;
}

static int write_all(const uint8_t *bytes, size_t count)
{
    while (count > 0) {
        ssize_t written = write(STDOUT_FILENO, bytes, count);
        if (written <= 0)
            return 0;
        bytes += written;
        count -= (size_t)written;
    }
    return 1;
}

/* Whether a whole frame stands at the front of so many bytes, or a length that is none. */
static int has_frame(const uint8_t *bytes, size_t count)
{
    return count >= 2 && (bytes[0] > 0 || bytes[1] > LONGEST || count >= 2u + bytes[1]);
}

static int is_too_long(const uint8_t *bytes)
{
    return bytes[0] > 0 || bytes[1] > LONGEST;
}

/* Answers the first frames of so many bytes, as many as make a group, and gives how many bytes these
   are, or none where the answers cannot be written. */
static size_t serve_group(struct service *it, const uint8_t *bytes, size_t count)
{
    size_t done = 0, length = 0, frames = 0;
    it->group.count = 0;
    while (frames++ < GROUP && has_frame(bytes + done, count - done) && !is_too_long(bytes + done)) {
        length += answer_to(bytes + done + 2, bytes[done + 1], it->numbers,
                            it->journal.room - it->journal.kept, &it->group, it->answers + length);
        done += 2u + bytes[done + 1];
    }
    if (it->group.count > 0)
        append(&it->journal, it->group.payments, it->group.count);
    return write_all(it->answers, length) ? done : 0;
}

/* Answers the frames that a read ended, and keeps what is behind them. */
static int serve_read(struct service *it, size_t count)
{
    size_t at = 0;
    while (has_frame(it->input + at, count - at)) {
        size_t done = serve_group(it, it->input + at, count - at);
        at += done;
        if (done == 0)
            return fail(is_too_long(it->input + at) ? "frame too long" : "write failed");
    }
    it->held = count - at;
    memmove(it->input, it->input + at, it->held);
    return 0;
}

int serve(const char *path)
{
    static struct service it;
    ssize_t count;
    set_up_host();
    it.journal = open_journal(path, &it.numbers);
    while ((count = read(STDIN_FILENO, it.input + it.held, READ)) > 0) {
        int status = serve_read(&it, it.held + (size_t)count);
        if (status != 0)
            return status;
    }
    if (count < 0)
        return fail("read failed");
    return it.held > 0 ? fail("input ends in a frame") : 0;
}
