/* Numbers, answers, files, and bytes that wait to be sent. */
#include "host.h"

#include <errno.h>
#include <fcntl.h>
#include <stdlib.h>
#include <string.h>
#include <sys/socket.h>
#include <sys/stat.h>
#include <time.h>
#include <unistd.h>

mode_t file_mode = 0644;

uint64_t little(const uint8_t *bytes, size_t size)
{
    uint64_t number = 0;
    while (size > 0)
        number = number << 8 | bytes[--size];
    return number;
}

void put_little(uint8_t *bytes, size_t size, uint64_t number)
{
    for (size_t i = 0; i < size; i++, number >>= 8)
        bytes[i] = (uint8_t)number;
}

struct answer read_answer(const uint8_t bytes[SERIFLADDER_ANSWER_SIZE])
{
    return (struct answer){
        .number = little(bytes + SERIFLADDER_ANSWER_NUMBER, 8),
        .consumed = little(bytes + SERIFLADDER_ANSWER_CONSUMED, 8),
        .written = little(bytes + SERIFLADDER_ANSWER_WRITTEN, 8),
        .taken = little(bytes + SERIFLADDER_ANSWER_TAKEN, 8),
    };
}

bool read_number(const char *text, uint64_t greatest, uint64_t *number)
{
    uint64_t read = 0;
    if (*text == '\0')
        return false;
    for (; *text != '\0'; text++) {
        if (*text < '0' || *text > '9')
            return false;
        uint64_t digit = (uint64_t)(*text - '0');
        if (digit > greatest || read > (greatest - digit) / 10)
            return false;
        read = 10 * read + digit;
    }
    *number = read;
    return true;
}

unsigned long number_at(const uint8_t *digits, size_t count)
{
    char text[NUMBER_LENGTH + 1] = "";
    memcpy(text, digits, count);
    return strtoul(text, NULL, 10);
}

unsigned long revision_of(const uint8_t *message)
{
    unsigned long revision = number_at(message + 8, 3);
    return revision == 0 ? 1 : revision;
}

bool write_all(int file, const void *bytes, size_t length)
{
    const char *from = bytes;
    while (length > 0) {
        ssize_t written = write(file, from, length);
        if (written < 0 && errno == EINTR)
            continue;
        if (written <= 0)
            return false;
        from += written;
        length -= (size_t)written;
    }
    return true;
}

bool lock_file(int file)
{
    struct flock whole = { .l_type = F_WRLCK, .l_whence = SEEK_SET };
    return fcntl(file, F_SETLK, &whole) == 0;
}

const char *why_not_locked(void)
{
    return errno == EAGAIN || errno == EACCES ? "in use by another host" : strerror(errno);
}

const char *name_in_folder(const char *path)
{
    const char *slash = strrchr(path, '/');
    return slash == NULL ? path : slash + 1;
}

int open_folder(const char *path)
{
    size_t length = (size_t)(name_in_folder(path) - path);
    char *folder = length == 0 ? strdup(".") : strndup(path, length);
    int opened = folder == NULL ? -1 : open(folder, O_RDONLY | O_DIRECTORY | O_CLOEXEC);
    free(folder);
    return opened;
}

bool same_file(const struct stat *one, const struct stat *other)
{
    return one->st_ino == other->st_ino && one->st_dev == other->st_dev;
}

bool same_place(const char *one, const char *other)
{
    struct stat first, second;
    if (stat(one, &first) == 0 && stat(other, &second) == 0)
        return same_file(&first, &second);
    int folders[] = { open_folder(one), open_folder(other) };
    bool same = strcmp(name_in_folder(one), name_in_folder(other)) == 0 && folders[0] >= 0 && folders[1] >= 0
        && fstat(folders[0], &first) == 0 && fstat(folders[1], &second) == 0 && same_file(&first, &second);
    close(folders[0]);
    close(folders[1]);
    return same;
}

void unblock(int descriptor)
{
    if (fcntl(descriptor, F_SETFL, fcntl(descriptor, F_GETFL) | O_NONBLOCK) != 0)
        fail("a descriptor cannot be made non-blocking: %s", strerror(errno));
}

int64_t now(void)
{
    struct timespec time;
    clock_gettime(CLOCK_MONOTONIC, &time);
    return (int64_t)time.tv_sec * SECOND + time.tv_nsec;
}

bool waiting_add(struct waiting *waiting, const void *bytes, size_t length)
{
    if (length > sizeof waiting->bytes - waiting->length)
        return false;
    memcpy(waiting->bytes + waiting->length, bytes, length);
    waiting->length += length;
    return true;
}

bool waiting_send(struct waiting *waiting, int socket)
{
    size_t sent = 0;
    while (sent < waiting->length) {
        ssize_t taken = send(socket, waiting->bytes + sent, waiting->length - sent, MSG_NOSIGNAL);
        if (taken < 0 && errno == EINTR)
            continue;
        if (taken < 0 && errno != EAGAIN && errno != EWOULDBLOCK)
            return false;
        if (taken < 0)
            break;
        sent += (size_t)taken;
    }
    waiting->length -= sent;
    memmove(waiting->bytes, waiting->bytes + sent, waiting->length);
    return true;
}
