/* The state file: the last tightening number, as text with a check sum. A new number goes to a file beside it, which is synced and then
   takes its place, so that the file is always whole, with the old number or the new one. */
#include "host.h"

#include <errno.h>
#include <fcntl.h>
#include <inttypes.h>
#include <limits.h>
#include <stdio.h>
#include <string.h>
#include <sys/stat.h>
#include <unistd.h>

enum { TEXT = 256 };
#define BEGINNING "serifladder state\nlast tightening number "

static const char *state_path, *name;
static char name_beside[NAME_MAX + 1], name_locked[NAME_MAX + 1];
static int folder, lock, current = -1; /* the folder, and the locked files: the lock's, and the state as it stands */

uint32_t check_sum(const char *bytes, size_t length)
{
    uint32_t sum = UINT32_MAX;
    for (size_t i = 0; i < length; i++) {
        sum ^= (uint8_t)bytes[i];
        for (unsigned bit = 0; bit < 8; bit++)
            sum = sum >> 1 ^ (sum & 1 ? UINT32_C(0xEDB88320) : 0);
    }
    return ~sum;
}

static size_t write_text(char text[TEXT], uint32_t number)
{
    int length = snprintf(text, TEXT, BEGINNING "%" PRIu32 "\n", number);
    return (size_t)(length + snprintf(text + length, TEXT - (size_t)length, "check sum %08" PRIx32 "\n",
                                      check_sum(text, (size_t)length)));
}

/* ---- one host at a time. The lock stands on a file of its own, because the state file itself is replaced again and again, and is held
   until the program ends. The state file is locked too, each from before it takes its place: so a lock file that was removed lets no second
   host in. */

/* Whether a file that was opened stands under that name yet; false with errno where nothing does. */
static bool stands_as(int file, const char *which)
{
    struct stat opened, found;
    errno = 0;
    return fstat(file, &opened) == 0 && fstatat(folder, which, &found, AT_SYMLINK_NOFOLLOW) == 0 && same_file(&found, &opened);
}

static int open_lock(int exclusive)
{
    int opened = openat(folder, name_locked, O_RDWR | O_CREAT | O_NOFOLLOW | O_CLOEXEC | exclusive, file_mode);
    if (opened < 0)
        fail("state %s: %s.lock cannot be opened: %s", state_path, state_path, strerror(errno));
    if (!lock_file(opened))
        fail("state %s: %s.lock cannot be locked: %s", state_path, state_path, why_not_locked());
    return opened;
}

/* Called when a number has been kept and before anything goes out with it. A lock file that was removed is made anew; one that another host
   has made meanwhile ends this host. The other has read the state after it made its lock: so it has read the number that was kept here, or
   it gives that number itself and this host does not. */
static void hold_lock(void)
{
    if (stands_as(lock, name_locked))
        return;
    if (errno != ENOENT)
        fail("state %s: another host has it, for %s.lock was removed or replaced; this one gives no number any more", state_path,
             state_path);
    int anew = open_lock(O_EXCL);
    close(lock);
    lock = anew;
    say("state %s: %s.lock was removed and is made anew", state_path, state_path);
}

/* ---- the file */

static _Noreturn void damaged(const char *how)
{
    fail("state %s is damaged: %s. Put a good copy in its place, or move it away and give the last tightening number with --new-state",
         state_path, how);
}

static uint32_t read_state(void)
{
    char text[TEXT + 1], expected[TEXT];
    unsigned long long number;
    current = openat(folder, name, O_RDWR | O_NOFOLLOW | O_CLOEXEC);
    if (current < 0)
        fail("state %s cannot be opened: %s", state_path, strerror(errno));
    if (!lock_file(current))
        fail("state %s cannot be locked: %s", state_path, why_not_locked());
    if (!stands_as(current, name))
        fail("state %s is in use by another host, which has just replaced it", state_path);
    ssize_t got = read(current, text, TEXT);
    if (got < 0)
        fail("state %s cannot be read: %s", state_path, strerror(errno));
    size_t length = (size_t)got;
    text[length] = '\0';
    if (sscanf(text, BEGINNING "%19llu", &number) != 1)
        damaged("it has not the form of a state file");
    if (number > UINT32_MAX)
        damaged("its number is greater than 4294967295");
    size_t whole = write_text(expected, (uint32_t)number);
    if (length > whole && memcmp(text, expected, whole) == 0)
        damaged("bytes follow its end");
    if (length != whole || memcmp(text, expected, whole) != 0)
        damaged("it is not what was written for its number");
    return (uint32_t)number;
}

/* What a host that was killed left of a number. Anything else that stands there is not followed and not removed. */
static void remove_left_over(void)
{
    struct stat found;
    if (fstatat(folder, name_beside, &found, AT_SYMLINK_NOFOLLOW) != 0)
        return;
    if (!S_ISREG(found.st_mode))
        fail("state %s: %s.new is no regular file, and is in the way of the next number: remove it", state_path, state_path);
    if (unlinkat(folder, name_beside, 0) != 0)
        fail("state %s: %s.new cannot be removed: %s", state_path, state_path, strerror(errno));
}

uint32_t state_open(const char *path, const uint32_t *fresh)
{
    struct stat found;
    state_path = path;
    name = name_in_folder(path);
    if (*name == '\0')
        fail("state %s is not the name of a file", path);
    if (snprintf(name_locked, sizeof name_locked, "%s.lock", name) > NAME_MAX
        || snprintf(name_beside, sizeof name_beside, "%s.new", name) > NAME_MAX)
        fail("state %s: the name is too long", path);
    folder = open_folder(path);
    if (folder < 0)
        fail("state %s: its folder cannot be opened: %s", path, strerror(errno));
    lock = open_lock(0);
    bool there = fstatat(folder, name, &found, AT_SYMLINK_NOFOLLOW) == 0;
    if (!there && errno != ENOENT)
        fail("state %s cannot be read: %s", path, strerror(errno));
    if (there && !S_ISREG(found.st_mode))
        fail("state %s is not a regular file", path);
    if (fresh == NULL && !there)
        fail("state %s is not there: --new-state NUMBER creates it, NUMBER being the last tightening number that was given (0 for none)",
             path);
    uint32_t number = there ? read_state() : *fresh;
    remove_left_over();
    if (there && fresh != NULL)
        say("state %s is there: --new-state is not needed", path);
    return number;
}

void state_keep(uint32_t number)
{
    char text[TEXT];
    size_t length = write_text(text, number);
    int file = openat(folder, name_beside, O_WRONLY | O_CREAT | O_EXCL | O_NOFOLLOW | O_CLOEXEC, file_mode);
    if (file < 0)
        fail("state %s cannot be written: %s.new: %s", state_path, state_path, strerror(errno));
    if (!lock_file(file) || !write_all(file, text, length) || fsync(file) != 0
        || renameat(folder, name_beside, folder, name) != 0 || fsync(folder) != 0)
        fail("state %s cannot be written: %s", state_path, strerror(errno));
    if (current >= 0)
        close(current);
    current = file;
    hold_lock();
}
