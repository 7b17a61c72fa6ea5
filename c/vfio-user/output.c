#define _GNU_SOURCE
#include "output.h"

#include <errno.h>
#include <fcntl.h>
#include <limits.h>
#include <poll.h>
#include <sys/socket.h>
#include <sys/stat.h>
#include <unistd.h>

#define STREAM_BYTES 4096

bool output_create(struct output *it, const char *name)
{
    struct stat about;
    *it = (struct output){.file = -1};
    int file = open(name, O_WRONLY | O_CREAT | O_TRUNC | O_CLOEXEC | O_NONBLOCK | O_NOCTTY, 0666);
    if (file < 0)
        return false;
    it->file = file;
    it->waits = fstat(file, &about) == 0 && !S_ISREG(about.st_mode);
    return true;
}

/* Opens the same pipe or terminal again, with flags that no other process shares. */
static int open_again(int file)
{
    char link[64];
    snprintf(link, sizeof link, "/proc/self/fd/%d", file);
    return open(link, O_WRONLY | O_CLOEXEC | O_NONBLOCK | O_NOCTTY);
}

void output_begin(struct output *it, int file)
{
    struct stat about;
    *it = (struct output){.file = file};
    if (fstat(file, &about) != 0) {
        it->file = -1;
        return;
    }
    it->is_socket = S_ISSOCK(about.st_mode);
    it->waits = S_ISFIFO(about.st_mode) || S_ISCHR(about.st_mode);
    int again = it->waits ? open_again(file) : -1;
    if (again >= 0)
        it->file = again;
}

/* Returns the number of bytes written; 0 if none can be written now; -1 if none can ever be. A pipe that couldn't be
   opened again gets one chunk at a time, when poll reports room. */
static ssize_t try_to_write(struct output *it, const uint8_t *bytes, size_t length)
{
    struct pollfd room = {it->file, POLLOUT, 0};
    ssize_t went;
    if (it->waits && poll(&room, 1, 0) == 0)
        return 0;
    if (it->waits && length > PIPE_BUF)
        length = PIPE_BUF;
    do
        went =
            it->is_socket ? send(it->file, bytes, length, MSG_DONTWAIT | MSG_NOSIGNAL) : write(it->file, bytes, length);
    while (went < 0 && errno == EINTR);
    return went >= 0 ? went : errno == EAGAIN || errno == EWOULDBLOCK ? 0 : -1;
}

void output_flush(struct output *it)
{
    while (it->file >= 0 && !it->error && buffer_waiting(&it->kept)) {
        ssize_t went = try_to_write(it, buffer_front(&it->kept), buffer_waiting(&it->kept));
        if (went < 0) {
            it->error = errno;
            buffer_clear(&it->kept);
        }
        if (went <= 0)
            return;
        buffer_take(&it->kept, (size_t)went);
    }
}

void output_put(struct output *it, const void *bytes, size_t length)
{
    if (it->file < 0 || it->error) {
        it->lost++;
        return;
    }
    output_flush(it);
    if (it->error || buffer_waiting(&it->kept) + length > OUTPUT_KEPT || !buffer_put(&it->kept, NULL, 0, bytes, length))
        it->lost++;
    output_flush(it);
}

void output_end(struct output *it, int milliseconds)
{
    struct pollfd room = {it->file, POLLOUT, 0};
    output_flush(it);
    while (it->file >= 0 && buffer_waiting(&it->kept) && milliseconds-- > 0) {
        poll(&room, 1, 1);
        output_flush(it);
    }
    buffer_clear(&it->kept);
    if (it->file > STDERR_FILENO)
        close(it->file);
    it->file = -1;
}

/* ---- a stream ---- */

static ssize_t put_line(void *to, const char *bytes, size_t length)
{
    output_put(to, bytes, length);
    return (ssize_t)length;
}

FILE *output_stream(struct output *it)
{
    const cookie_io_functions_t functions = {.write = put_line};
    FILE *stream = fopencookie(it, "w", functions);
    if (stream)
        setvbuf(stream, NULL, _IOLBF, STREAM_BYTES);
    return stream;
}
