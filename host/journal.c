/* The journal: every call as a house record, in the order of the calls. Parts that are full are FILE.1, FILE.2 and so on; they and then
   FILE, one behind the other, are one journal. The oldest parts are deleted. Beside the part FILE.7 stand
     FILE.7.table  the lent table as it was when the part began, and which map it has, unless the part begins with a start;
     FILE.7.times  lines with the bytes of the part so far and the time of day, one at each start and behind each 60th tick;
     FILE.7.cut    where the part ended within a record, the bytes of that.
   What stands beside FILE itself has from its beginning the number that FILE gets when it is put aside. */
#include "host.h"

#include <dirent.h>
#include <errno.h>
#include <fcntl.h>
#include <inttypes.h>
#include <limits.h>
#include <stdio.h>
#include <stdlib.h>
#include <string.h>
#include <sys/stat.h>
#include <sys/statvfs.h>
#include <time.h>
#include <unistd.h>

#define TABLE ".table"
#define TIMES ".times"
#define CUT ".cut"
static const char *const ENDS[] = { "", TABLE, TIMES, CUT };
enum { END_COUNT = sizeof ENDS / sizeof ENDS[0], TICKS_BETWEEN_TIMES = 60, TABLE_LAST_NUMBER = 8 /* docs/TABLE.md */ };

static struct journal_options journal;
static int file = -1;
static bool regular = true; /* a device or a FIFO is written as it stands, and never renamed */
static struct stat ours;    /* FILE, as it was opened */
static uint64_t size, number; /* of FILE: its bytes, and the number that it gets */
static uint64_t parts;        /* so many there were, besides FILE, when it was begun */
static struct replayed earlier; /* what was found in FILE at the start */
static bool earlier_started;    /* and whether its calls can go on: it has a table, or a start */

static _Noreturn void cannot(const char *what)
{
    fail("journal %s cannot be %s: %s", journal.path, what, strerror(errno));
}

static void part_name(char name[PATH_MAX], uint64_t part, const char *end)
{
    if (snprintf(name, PATH_MAX, "%s.%" PRIu64 "%s", journal.path, part, end) >= PATH_MAX)
        fail("journal %s: the name is too long", journal.path);
}

/* ---- the numbers of the parts that are there */

struct numbers {
    uint64_t *of; /* each once, the least first */
    size_t count;
    uint64_t next; /* the number that FILE gets: that of a table without a part, or one more than that of the last part */
};

/* The number N where a name is FILE.N, or that of a file beside such a part, whose end it says then; 0 where it is neither. */
static uint64_t part_of(char *entry, const char **end)
{
    const char *name = name_in_folder(journal.path);
    size_t length = strlen(name), whole = strlen(entry);
    uint64_t part;
    if (strncmp(entry, name, length) != 0 || entry[length] != '.' || entry[length + 1] == '0')
        return 0;
    for (size_t e = END_COUNT; e-- > 0;) {
        size_t more = strlen(ENDS[e]);
        if (whole < more || strcmp(entry + whole - more, ENDS[e]) != 0)
            continue;
        *end = ENDS[e];
        entry[whole - more] = '\0';
        return read_number(entry + length + 1, UINT32_MAX, &part) ? part : 0;
    }
    return 0;
}

static int by_size(const void *a, const void *b)
{
    uint64_t left = *(const uint64_t *)a, right = *(const uint64_t *)b;
    return (left > right) - (left < right);
}

static struct numbers numbers_there(void)
{
    struct numbers numbers = { .next = 1 };
    const char *end = "";
    size_t distinct = 0;
    int folder = open_folder(journal.path);
    DIR *names = folder < 0 ? NULL : fdopendir(folder);
    if (names == NULL)
        cannot("looked for in its folder");
    for (struct dirent *entry; (entry = readdir(names)) != NULL;) {
        uint64_t part = part_of(entry->d_name, &end);
        if (part == 0)
            continue;
        uint64_t *more = realloc(numbers.of, (numbers.count + 1) * sizeof *more);
        if (more == NULL)
            cannot("listed with its parts");
        numbers.of = more;
        numbers.of[numbers.count++] = part;
        bool of_file = strcmp(end, TABLE) == 0 || strcmp(end, TIMES) == 0;
        if (numbers.next < part + !of_file)
            numbers.next = part + !of_file;
    }
    closedir(names);
    if (numbers.count > 0)
        qsort(numbers.of, numbers.count, sizeof *numbers.of, by_size);
    for (size_t i = 0; i < numbers.count; i++)
        if (i == 0 || numbers.of[i] != numbers.of[i - 1])
            numbers.of[distinct++] = numbers.of[i];
    numbers.count = distinct;
    return numbers;
}

/* ---- what stands beside a part */

/* Writes a file that is not there yet; the bytes are on the disk then. */
static void write_beside(const char *end, const uint8_t *bytes, size_t length)
{
    char name[PATH_MAX];
    part_name(name, number, end);
    int beside = open(name, O_WRONLY | O_CREAT | O_EXCL | O_CLOEXEC, file_mode);
    if (beside < 0 || !write_all(beside, bytes, length) || fsync(beside) != 0 || close(beside) != 0)
        fail("%s, beside the journal, cannot be written: %s", name, strerror(errno));
}

static void remove_beside(uint64_t part, const char *end)
{
    char name[PATH_MAX];
    part_name(name, part, end);
    if (unlink(name) != 0 && errno != ENOENT)
        say("%s, beside the journal, cannot be deleted: %s", name, strerror(errno));
}

static void rename_beside(const char *end, uint64_t to)
{
    char old[PATH_MAX], new[PATH_MAX];
    part_name(old, number, end);
    part_name(new, to, end);
    if (rename(old, new) != 0 && errno != ENOENT)
        cannot("renamed with what stands beside it");
}

/* A line with the bytes of FILE so far and the time of day. That it cannot be written does not hold the host up. */
static void note_time(void)
{
    char name[PATH_MAX], line[64];
    time_t now = time(NULL);
    struct tm fields;
    gmtime_r(&now, &fields);
    size_t at = (size_t)snprintf(line, sizeof line, "%" PRIu64 " ", size);
    at += strftime(line + at, sizeof line - at, "%Y-%m-%dT%H:%M:%SZ\n", &fields);
    part_name(name, number, TIMES);
    int times = open(name, O_WRONLY | O_APPEND | O_CREAT | O_NOFOLLOW | O_CLOEXEC, file_mode);
    if (times < 0 || !write_all(times, line, at))
        say("%s, the times of the journal, cannot be written: %s", name, strerror(errno));
    if (times >= 0)
        close(times);
}

/* ---- FILE and its parts */

static void write_table(const uint8_t *table)
{
    static uint8_t kept[TABLE_KEPT_SIZE];
    memcpy(kept, table, SERIFLADDER_TABLE_SIZE);
    memcpy(kept + SERIFLADDER_TABLE_SIZE, TABLE_MAP, TABLE_MAP_LENGTH);
    write_beside(TABLE, kept, sizeof kept);
}

/* Begins FILE anew. Where a table is given it is kept beside it; else a start comes first. */
static void begin(const uint8_t *table)
{
    if (regular) {
        remove_beside(number, TABLE);
        remove_beside(number, TIMES);
    }
    if (table != NULL)
        write_table(table);
    file = open(journal.path, O_WRONLY | O_APPEND | O_CLOEXEC | (regular ? O_CREAT | O_EXCL : 0), file_mode);
    if (file < 0)
        cannot("opened");
    if (regular && !lock_file(file))
        cannot("locked");
    if (fstat(file, &ours) != 0)
        cannot("read");
    if (!regular)
        unblock(file); /* it is waited for beside the signals that end the host */
    size = 0;
}

static void check_number(void)
{
    if (number > UINT32_MAX)
        fail("journal %s: part %" PRIu32 " is the last that there can be. Move the parts away", journal.path, UINT32_MAX);
}

/* Where somebody has made a file with the number that FILE is to get, it gets another. */
static void find_other_number(void)
{
    struct numbers there = numbers_there();
    for (size_t e = 1; e < END_COUNT; e++)
        rename_beside(ENDS[e], there.next);
    number = there.next;
    free(there.of);
    check_number();
}

/* FILE becomes a part. */
static void put_aside(void)
{
    char name[PATH_MAX];
    struct stat found;
    part_name(name, number, "");
    if (lstat(name, &found) == 0) {
        find_other_number();
        part_name(name, number, "");
    }
    if (rename(journal.path, name) != 0)
        cannot("renamed");
    number += 1;
}

/* A host whose journal is named like a part of this one has it locked. */
static bool is_of_another_host(uint64_t part)
{
    char name[PATH_MAX];
    part_name(name, part, "");
    int opened = open(name, O_RDWR | O_CLOEXEC | O_NONBLOCK);
    bool locked = opened >= 0 && !lock_file(opened);
    close(opened);
    return locked;
}

static void delete_part(uint64_t part)
{
    if (is_of_another_host(part)) {
        say("journal %s: %s.%" PRIu64 " is another host's journal, and is not deleted", journal.path, journal.path, part);
        return;
    }
    say("journal %s: part %" PRIu64 " is deleted, %" PRIu64 " are kept", journal.path, part, journal.keep);
    for (size_t e = 0; e < END_COUNT; e++)
        remove_beside(part, ENDS[e]);
}

static void delete_oldest(void)
{
    struct numbers there = numbers_there();
    while (there.count > 0 && there.of[there.count - 1] >= number) /* what stands beside FILE itself */
        there.count -= 1;
    for (size_t i = 0; i + journal.keep < there.count; i++)
        delete_part(there.of[i]);
    parts = there.count < journal.keep ? there.count : journal.keep;
    free(there.of);
}

uint64_t journal_parts(void)
{
    return file < 0 ? 0 : parts + 1;
}

/* ---- what is there at the start */

/* Replays a part, or FILE, from its table or its start. True where it shows a last tightening number. */
static bool read_last(int from, uint64_t part, struct replayed *replayed, uint32_t *last)
{
    static uint8_t table[SERIFLADDER_TABLE_SIZE];
    char name[PATH_MAX];
    part_name(name, part, TABLE);
    int begins = open(name, O_RDONLY | O_CLOEXEC);
    if (begins < 0 || !table_read(begins, table))
        memset(table, 0, sizeof table);
    if (begins >= 0)
        close(begins);
    *replayed = replay_journal(from, table, NULL);
    *last = (uint32_t)little(table + TABLE_LAST_NUMBER, 4);
    return table_is_formed(table);
}

/* The number that the newest part shows, of those that show one. */
static bool read_last_of_parts(const struct numbers *there, uint32_t *last)
{
    struct replayed replayed;
    char name[PATH_MAX];
    bool shown = false;
    for (size_t i = there->count; i-- > 0 && !shown;) {
        part_name(name, there->of[i], "");
        int part = open(name, O_RDONLY | O_CLOEXEC | O_NONBLOCK);
        if (part < 0)
            continue;
        shown = read_last(part, there->of[i], &replayed, last);
        close(part);
    }
    return shown;
}

bool journal_find(const struct journal_options *options, uint32_t *last)
{
    struct stat found;
    journal = *options;
    bool there = stat(journal.path, &found) == 0;
    if (!there && errno != ENOENT)
        cannot("opened");
    regular = !there || S_ISREG(found.st_mode);
    if (!regular)
        return false;
    struct numbers numbers = numbers_there();
    number = numbers.next;
    check_number();
    if (there) {
        file = open(journal.path, O_RDWR | O_APPEND | O_CLOEXEC);
        if (file < 0 || fstat(file, &ours) != 0)
            cannot("opened");
        if (!lock_file(file))
            fail("journal %s cannot be locked: %s", journal.path, why_not_locked());
        earlier_started = read_last(file, number, &earlier, last);
        if (earlier.failed)
            cannot("read");
    }
    bool shown = earlier_started || read_last_of_parts(&numbers, last);
    free(numbers.of);
    return shown;
}

/* Keeps the bytes of a record that is not whole beside the part that they were the end of, before they are taken off it. */
static void cut_end(void)
{
    uint8_t bytes[RECORD_GREATEST];
    if (pread(file, bytes, earlier.rest, (off_t)earlier.whole) != (ssize_t)earlier.rest)
        cannot("read");
    write_beside(CUT, bytes, earlier.rest);
    if (ftruncate(file, (off_t)earlier.whole) != 0)
        cannot("ended with its last whole record");
    say("journal %s ended within a record: its last %zu bytes are now in %s.%" PRIu64 CUT, journal.path, earlier.rest, journal.path,
        number);
}

/* Whether a start can be put behind what FILE has. A file that is no journal is put aside as it is; one whose last write was cut, by a
   power cut say, ends with its last whole record then. */
static bool goes_on(void)
{
    if (earlier.too_long)
        say("journal %s was no journal", journal.path);
    else if (earlier.rest > 0)
        cut_end();
    return earlier.rest == 0 && earlier.whole <= journal.size && (earlier.whole == 0 || earlier_started);
}

/* The parts and their tables may come to take more than the disk has room for: better said at the start than by the end of the host. */
static void look_at_disk(void)
{
    struct statvfs disk;
    struct stat found;
    struct numbers there = numbers_there();
    char name[PATH_MAX];
    uint64_t part = journal.size + TABLE_KEPT_SIZE, count = journal.keep + 1, taken = size;
    uint64_t more = part > INT64_MAX / count ? INT64_MAX : part * count;
    for (size_t i = 0; i < there.count * END_COUNT; i++) {
        part_name(name, there.of[i / END_COUNT], ENDS[i % END_COUNT]);
        if (stat(name, &found) == 0)
            taken += (uint64_t)found.st_size;
    }
    free(there.of);
    more -= taken < more ? taken : more;
    if (fstatvfs(file, &disk) == 0 && disk.f_bavail < more / disk.f_frsize)
        say("journal %s may come to take %" PRIu64 " bytes more, and its disk has room for %" PRIu64 ": give a smaller --journal-size or "
            "--journal-keep", journal.path, more, (uint64_t)disk.f_bavail * disk.f_frsize);
}

void journal_open(void)
{
    bool there = file >= 0;
    if (there && goes_on()) {
        size = earlier.whole;
    } else {
        if (there) {
            close(file);
            put_aside();
        }
        begin(NULL);
    }
    if (regular) {
        delete_oldest();
        note_time();
        look_at_disk();
    }
}

/* ---- records */

/* Whether FILE is the one that is written, and nobody has cut it. */
static bool is_ours(void)
{
    struct stat found;
    return stat(journal.path, &found) == 0 && same_file(&found, &ours) && (uint64_t)found.st_size >= size;
}

/* FILE was removed, renamed or cut. What stands in its place becomes a part, unless it is another host's. */
static void make_way(void)
{
    struct stat found;
    say("journal %s was removed, renamed or cut: a new one is begun, with its table beside it", journal.path);
    close(file);
    number += 1;
    if (lstat(journal.path, &found) != 0)
        return;
    int other = open(journal.path, O_RDWR | O_CLOEXEC | O_NONBLOCK);
    if (other >= 0 && !lock_file(other))
        fail("journal %s: what stands there now cannot be locked: %s", journal.path, why_not_locked());
    put_aside();
    close(other);
}

void journal_prepare(const uint8_t *table)
{
    if (file < 0 || !regular)
        return;
    bool ours_yet = is_ours();
    if (ours_yet && size <= journal.size)
        return;
    if (ours_yet) {
        put_aside();
        close(file); /* until now it is locked */
    } else {
        make_way();
    }
    check_number();
    delete_oldest();
    begin(table);
    note_time();
}

/* Waits until a FIFO takes something, but not against a signal that ends the host. What is waited for is said once, if for a second. */
static void wait_for_reader(bool *said)
{
    struct pollfd set[] = { { .fd = file, .events = POLLOUT }, { .fd = signals_descriptor(), .events = POLLIN } };
    if (poll(set, 2, *said ? -1 : 1000) == 0) {
        say("journal %s takes nothing: its reader is waited for", journal.path);
        *said = true;
    }
    if (signals_end())
        fail("journal %s takes nothing, and the host is to end: nothing goes out of the call that is not journaled", journal.path);
}

static bool write_waiting(const uint8_t *bytes, size_t length)
{
    bool said = false;
    while (length > 0) {
        ssize_t written = write(file, bytes, length);
        if (written < 0 && (errno == EAGAIN || errno == EWOULDBLOCK)) {
            wait_for_reader(&said);
        } else if (written > 0) {
            bytes += written;
            length -= (size_t)written;
        } else if (errno != EINTR) {
            return false;
        }
    }
    return true;
}

void journal_record(unsigned record_kind, const uint8_t *payload, size_t length)
{
    static uint64_t ticks;
    uint8_t record[RECORD_GREATEST];
    if (file < 0)
        return;
    put_little(record, 2, length);
    put_little(record + 2, 2, record_kind);
    if (length > 0)
        memcpy(record + SERIFLADDER_RECORD_HEADER, payload, length);
    length += SERIFLADDER_RECORD_HEADER;
    if (!write_waiting(record, length)) {
        int reason = errno;
        if (regular && ftruncate(file, (off_t)size) != 0)
            say("journal %s ends within a record", journal.path);
        errno = reason;
        cannot("written");
    }
    size += length;
    if (regular && record_kind == JOURNAL_TICK && ++ticks % TICKS_BETWEEN_TIMES == 0)
        note_time();
}
