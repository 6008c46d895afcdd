/* Serials: the names that tools give to their records, so that one that is sent again is answered again and not taken twice. The answers to
   the last ones are kept; those to tightenings in STATE.serials too, on the disk before the number is, a line each. A line counts where
   its number was given and, if there is a journal, stands in that: what the host was killed over is taken anew. */
#include "host.h"

#include <errno.h>
#include <fcntl.h>
#include <inttypes.h>
#include <limits.h>
#include <stdio.h>
#include <stdlib.h>
#include <string.h>
#include <unistd.h>

enum {
    KEPT = 64,                      /* so many serials are known */
    SIGNED = 2 * SERIAL_LENGTH + 13 /* bytes of a line that its check sum is of */
};
#define LINE_LENGTH (SIGNED + 10)

static struct kept {
    bool used;
    uint8_t serial[SERIAL_LENGTH];
    uint32_t number; /* 0: an identifier's or an alarm's, which has none */
    uint64_t taken;
} kept[KEPT];
static unsigned next;

static char path[PATH_MAX];
static int file = -1;

static _Noreturn void cannot(const char *what)
{
    fail("serials %s cannot be %s: %s", path, what, strerror(errno));
}

/* ---- a line: the serial in hexadecimal digits, the number, who took it, and the check sum of these */

static void write_line(char line[LINE_LENGTH + 1], const struct kept *entry)
{
    int at = 0;
    for (unsigned i = 0; i < SERIAL_LENGTH; i++)
        at += snprintf(line + at, LINE_LENGTH + 1 - (size_t)at, "%02x", entry->serial[i]);
    at += snprintf(line + at, LINE_LENGTH + 1 - (size_t)at, " %010" PRIu32 " %" PRIx64, entry->number, entry->taken);
    snprintf(line + at, LINE_LENGTH + 1 - (size_t)at, " %08" PRIx32 "\n", check_sum(line, SIGNED));
}

/* False where it is no line that was written whole. */
static bool read_line(const char *line, struct kept *entry)
{
    char again[LINE_LENGTH + 1];
    for (unsigned i = 0; i < SERIAL_LENGTH; i++)
        if (sscanf(line + 2 * i, "%2hhx", &entry->serial[i]) != 1)
            return false;
    if (sscanf(line + 2 * SERIAL_LENGTH, " %10" SCNu32 " %1" SCNx64, &entry->number, &entry->taken) != 2)
        return false;
    write_line(again, entry);
    entry->used = memcmp(line, again, LINE_LENGTH) == 0;
    return entry->used;
}

static void put_line(unsigned place, const char *line)
{
    if (pwrite(file, line, LINE_LENGTH, (off_t)place * LINE_LENGTH) != LINE_LENGTH || fdatasync(file) != 0)
        cannot("written");
}

/* ---- the file */

static void open_file(int flags)
{
    file = open(path, O_RDWR | O_CLOEXEC | O_NOFOLLOW | flags, file_mode);
    if (file < 0 && (flags & O_CREAT || errno != ENOENT))
        cannot("opened");
}

/* A line that does not count is taken out: its number will be another tightening's. */
static void forget(unsigned place)
{
    char blank[LINE_LENGTH + 1];
    snprintf(blank, sizeof blank, "%*s\n", LINE_LENGTH - 1, "");
    put_line(place, blank);
    kept[place].used = false;
}

void serials_open(const char *state, uint32_t given)
{
    char line[LINE_LENGTH + 1] = "";
    uint32_t greatest = 0;
    if (snprintf(path, sizeof path, "%s.serials", state) >= PATH_MAX)
        fail("state %s: the name is too long", state);
    open_file(0);
    for (unsigned place = 0; file >= 0 && place < KEPT; place++) {
        ssize_t got = pread(file, line, LINE_LENGTH, (off_t)place * LINE_LENGTH);
        if (got < 0)
            cannot("read");
        if (got < LINE_LENGTH || !read_line(line, &kept[place]))
            continue;
        if (kept[place].number > given)
            forget(place);
        else if (kept[place].number >= greatest) {
            greatest = kept[place].number;
            next = (place + 1) % KEPT;
        }
    }
}

void serial_keep(const uint8_t serial[SERIAL_LENGTH], uint32_t number, uint64_t taken)
{
    char line[LINE_LENGTH + 1];
    struct kept *entry = &kept[next];
    *entry = (struct kept){ .used = true, .number = number, .taken = taken };
    memcpy(entry->serial, serial, SERIAL_LENGTH);
    if (number > 0) {
        int folder = -1;
        if (file < 0) {
            open_file(O_CREAT);
            folder = open_folder(path);
        }
        write_line(line, entry);
        put_line(next, line);
        if (folder >= 0 && (fsync(folder) != 0 || close(folder) != 0))
            cannot("made");
    }
    next = (next + 1) % KEPT;
}

bool serial_known(const uint8_t serial[SERIAL_LENGTH], uint32_t *number, uint64_t *taken)
{
    for (unsigned place = 0; place < KEPT; place++)
        if (kept[place].used && memcmp(kept[place].serial, serial, SERIAL_LENGTH) == 0) {
            *number = kept[place].number;
            *taken = kept[place].taken;
            return true;
        }
    return false;
}
