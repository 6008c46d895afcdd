/* Doors: sockets that listen. */
#include "host.h"

#include <errno.h>
#include <fcntl.h>
#include <stdlib.h>
#include <string.h>
#include <sys/resource.h>
#include <sys/socket.h>
#include <sys/stat.h>
#include <sys/un.h>
#include <unistd.h>

enum { DESCRIPTORS_SPARE = 8 }; /* so many no connection may take: the state and the journal open files while the host runs */

struct pollfd door_poll(const struct door *door)
{
    return (struct pollfd){ .fd = now() < door->rests ? -1 : door->socket, .events = POLLIN };
}

/* Whether so few descriptors are left behind this one, the lowest that was free, that it is to be given back. */
static bool is_spare(int descriptor)
{
    struct rlimit limit;
    unsigned left = 0;
    if (getrlimit(RLIMIT_NOFILE, &limit) != 0)
        return false;
    for (rlim_t other = (rlim_t)descriptor + 1; other < limit.rlim_cur && left < DESCRIPTORS_SPARE; other++)
        left += fcntl((int)other, F_GETFD) < 0;
    return left < DESCRIPTORS_SPARE;
}

int door_take(struct door *door, struct sockaddr_in *address)
{
    socklen_t size = sizeof *address;
    int taken = accept(door->socket, (struct sockaddr *)address, address == NULL ? NULL : &size);
    if (taken < 0 && (errno == EAGAIN || errno == EWOULDBLOCK || errno == EINTR || errno == ECONNABORTED))
        return -1;
    bool spare = taken >= 0 && is_spare(taken);
    if (taken >= 0 && !spare) {
        unblock(taken);
        return taken;
    }
    say("%s: a connection cannot be taken: %s", door->whose, spare ? "too few file descriptors are left" : strerror(errno));
    if (spare)
        close(taken);
    door->rests = now() + SECOND;
    return -1;
}

/* ---- doors that stand in the file system */

enum { MADE_GREATEST = 2 };
static const char *made[MADE_GREATEST]; /* where they stand, to be removed at the end */

static void remove_made(void)
{
    for (unsigned i = 0; i < MADE_GREATEST; i++)
        if (made[i] != NULL)
            unlink(made[i]);
}

/* A socket file that nobody listens on any more is removed; anything else that stands there is left alone. */
static void make_way(const char *whose, const struct sockaddr_un *address)
{
    const char *path = address->sun_path;
    struct stat found;
    if (lstat(path, &found) != 0) {
        if (errno != ENOENT)
            fail("%s %s: %s", whose, path, strerror(errno));
        return;
    }
    if (!S_ISSOCK(found.st_mode))
        fail("%s %s is not a socket", whose, path);
    int asked = socket(AF_UNIX, SOCK_STREAM, 0);
    if (connect(asked, (const struct sockaddr *)address, sizeof *address) == 0)
        fail("%s %s is in use by another host", whose, path);
    if (errno != ECONNREFUSED || unlink(path) != 0)
        fail("%s %s cannot be replaced: %s", whose, path, strerror(errno));
    close(asked);
}

void door_make(struct door *door, const char *path, const struct socket_access *access)
{
    struct sockaddr_un address = { .sun_family = AF_UNIX };
    if (strlen(path) >= sizeof address.sun_path)
        fail("%s %s: the path of a socket has at most %zu bytes", door->whose, path, sizeof address.sun_path - 1);
    memcpy(address.sun_path, path, strlen(path));
    make_way(door->whose, &address);
    door->socket = socket(AF_UNIX, SOCK_STREAM, 0);
    if (door->socket < 0 || !bind_with(door->socket, &address, access) || listen(door->socket, SOMAXCONN) != 0)
        fail("%s %s: no socket can be made there: %s", door->whose, path, strerror(errno));
    if (made[0] == NULL)
        atexit(remove_made);
    made[made[0] == NULL ? 0 : 1] = path;
    unblock(door->socket);
}

void door_close(struct door *door)
{
    close(door->socket);
    door->socket = -1;
}
