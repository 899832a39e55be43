/*
 * Writes what a server does with its sockets to the file that TAP names: what it accepts, reads,
 * sends and closes, and which channels it has connected. Connections to the port TAP_WITHOUT are
 * left out. It is loaded before the C library.
 *
 * An entry has a kind, a descriptor, a number and the length of the bytes that follow:
 *   a  accepted; the number is the port that was listened on
 *   o  kept, since its options are set (a connection for which there is no place isn't)
 *   p  connected: the peer has answered
 *   r  the bytes that were read; the number is 0, or that of an error
 *   s  the bytes that the socket took; the number is how many it was given
 *   x  closed; the number is 1 if the peer had left
 * Entries wait until the server looks for what is new, or 64 KiB wait.
 */
#define _GNU_SOURCE
#include <dlfcn.h>
#include <errno.h>
#include <fcntl.h>
#include <netinet/in.h>
#include <poll.h>
#include <stdint.h>
#include <stdlib.h>
#include <string.h>
#include <sys/epoll.h>
#include <sys/socket.h>
#include <unistd.h>

struct entry {
    int32_t kind, socket, number, length;
};

static char waiting[65536];
static size_t count;
static int file = -1;
static int without;
static char left_out[4096];     /* by descriptor */

#define GIVEN(name) static __typeof__(&name) given_##name
GIVEN(accept4);
GIVEN(setsockopt);
GIVEN(getpeername);
GIVEN(recv);
GIVEN(send);
GIVEN(close);
GIVEN(epoll_wait);

__attribute__((constructor)) static void begin(void)
{
    const char *path = getenv("TAP"), *port = getenv("TAP_WITHOUT");

#define FIND(name) given_##name = (__typeof__(&name))dlsym(RTLD_NEXT, #name)
    FIND(accept4);
    FIND(setsockopt);
    FIND(getpeername);
    FIND(recv);
    FIND(send);
    FIND(close);
    FIND(epoll_wait);
    without = port ? atoi(port) : 0;
    if (path)
        file = open(path, O_WRONLY | O_CREAT | O_TRUNC | O_CLOEXEC, 0600);
}

static void flush(void)
{
    size_t from = 0;

    while (from < count) {
        ssize_t taken = write(file, waiting + from, count - from);
        if (taken < 0 && errno != EINTR)
            abort();
        from += taken > 0 ? (size_t)taken : 0;
    }
    count = 0;
}

static void add(const void *bytes, size_t length)
{
    const char *from = bytes;

    while (length) {
        size_t room = sizeof waiting - count, part = length < room ? length : room;
        memcpy(waiting + count, from, part);
        count += part;
        from += part;
        length -= part;
        if (count == sizeof waiting)
            flush();
    }
}

static void note(char kind, int socket, int32_t number, const void *bytes, ssize_t length)
{
    int given = errno;
    struct entry entry = { kind, socket, number, length > 0 ? (int32_t)length : 0 };

    if (socket >= 0 && socket < (int)sizeof left_out && left_out[socket])
        return;
    add(&entry, sizeof entry);
    add(bytes, (size_t)entry.length);
    errno = given;
}

int accept4(int socket, struct sockaddr *address, socklen_t *length, int flags)
{
    struct sockaddr_in own = { 0 };
    socklen_t size = sizeof own;
    int made = given_accept4(socket, address, length, flags);

    if (made >= 0 && getsockname(socket, (struct sockaddr *)&own, &size) == 0) {
        if (made < (int)sizeof left_out)
            left_out[made] = ntohs(own.sin_port) == without;
        note('a', made, ntohs(own.sin_port), NULL, 0);
    }
    return made;
}

int setsockopt(int socket, int level, int name, const void *value, socklen_t length)
{
    if (level == IPPROTO_TCP)
        note('o', socket, 0, NULL, 0);
    return given_setsockopt(socket, level, name, value, length);
}

int getpeername(int socket, struct sockaddr *address, socklen_t *length)
{
    int status = given_getpeername(socket, address, length);

    if (status == 0)
        note('p', socket, 0, NULL, 0);
    return status;
}

ssize_t recv(int socket, void *buffer, size_t length, int flags)
{
    ssize_t found = given_recv(socket, buffer, length, flags);

    if (found >= 0 || errno != EAGAIN)
        note('r', socket, found < 0 ? errno : 0, buffer, found);
    return found;
}

ssize_t send(int socket, const void *bytes, size_t length, int flags)
{
    ssize_t taken = given_send(socket, bytes, length, flags);

    note('s', socket, (int32_t)length, bytes, taken);
    return taken;
}

int close(int socket)
{
    struct pollfd state = { socket, POLLIN | POLLRDHUP, 0 };

    if (socket != file)
        note('x', socket, poll(&state, 1, 0) > 0 && state.revents & (POLLRDHUP | POLLHUP | POLLERR), NULL, 0);
    if (socket >= 0 && socket < (int)sizeof left_out)
        left_out[socket] = 0;
    return given_close(socket);
}

int epoll_wait(int group, struct epoll_event *events, int most, int milliseconds)
{
    flush();
    return given_epoll_wait(group, events, most, milliseconds);
}
