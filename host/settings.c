/* The settings file: lines KEY = VALUE, each key once; lines that begin with # and empty lines are left out. */
#include "host.h"

#include <ctype.h>
#include <errno.h>
#include <stdio.h>
#include <stdlib.h>
#include <string.h>

/* Each reads a value into the record's payload, where document 01 has it; false where it is not allowed. */

static bool read_into(const char *value, uint64_t greatest, uint8_t *place, size_t size)
{
    uint64_t number;
    if (!read_number(value, greatest, &number))
        return false;
    put_little(place, size, number);
    return true;
}

static bool read_cell(const char *value, uint8_t *payload)
{
    return read_into(value, 9999, payload, 2);
}

static bool read_channel(const char *value, uint8_t *payload)
{
    return read_into(value, 99, payload + 2, 1);
}

static bool read_granted(const char *value, uint8_t *payload)
{
    payload[3] = strcmp(value, "yes") == 0;
    return payload[3] == 1 || strcmp(value, "no") == 0;
}

static bool read_name(const char *value, uint8_t *payload)
{
    size_t length = strlen(value);
    if (length > NAME_LENGTH)
        return false;
    for (size_t i = 0; i < length; i++)
        if (value[i] < 0x20 || value[i] > 0x7E)
            return false;
    memset(payload + 4, ' ', NAME_LENGTH);
    memcpy(payload + 4, value, length);
    return true;
}

static const struct key {
    const char *name, *allowed;
    bool (*read)(const char *value, uint8_t *payload);
} KEYS[] = {
    { "cell", "a number from 0 to 9999", read_cell },
    { "channel", "a number from 0 to 99", read_channel },
    { "granted", "yes or no", read_granted },
    { "name", "up to 25 printable bytes", read_name },
};

enum { KEY_COUNT = sizeof KEYS / sizeof KEYS[0] };

/* The text without the spaces around it; the text itself is cut. */
static char *trimmed(char *text)
{
    size_t length = strlen(text);
    while (length > 0 && isspace((unsigned char)text[length - 1]))
        text[--length] = '\0';
    while (isspace((unsigned char)*text))
        text++;
    return text;
}

void settings_read(const char *path, uint8_t record[SETTINGS_RECORD])
{
    FILE *file = fopen(path, "r");
    char *line = NULL;
    size_t room = 0, number = 0, said_at[KEY_COUNT] = { 0 };
    ssize_t length;
    if (file == NULL)
        fail("settings %s cannot be read: %s", path, strerror(errno));
    memset(record, 0, SETTINGS_RECORD);
    put_little(record, 2, SETTINGS_RECORD - SERIFLADDER_RECORD_HEADER);
    put_little(record + 2, 2, SERIFLADDER_SETTINGS);
    while ((length = getline(&line, &room, file)) >= 0) {
        number += 1;
        if (strlen(line) != (size_t)length)
            fail("%s:%zu: the line holds a NUL byte; settings are text", path, number);
        char *key = trimmed(line);
        if (*key == '\0' || *key == '#')
            continue;
        char *value = strchr(key, '=');
        if (value == NULL)
            fail("%s:%zu: \"%s\" is not KEY = VALUE; the keys are cell, channel, granted and name", path, number, key);
        *value = '\0';
        key = trimmed(key);
        value = trimmed(value + 1);
        size_t k = 0;
        while (k < KEY_COUNT && strcmp(key, KEYS[k].name) != 0)
            k++;
        if (k == KEY_COUNT)
            fail("%s:%zu: there is no key \"%s\"; the keys are cell, channel, granted and name", path, number, key);
        if (said_at[k] != 0)
            fail("%s:%zu: %s stands in line %zu already; each key stands once", path, number, key, said_at[k]);
        if (!KEYS[k].read(value, record + SERIFLADDER_RECORD_HEADER))
            fail("%s:%zu: %s is \"%s\", but allowed is %s", path, number, key, value, KEYS[k].allowed);
        said_at[k] = number;
    }
    if (ferror(file))
        fail("settings %s cannot be read: %s", path, strerror(errno));
    for (size_t k = 0; k < KEY_COUNT; k++)
        if (said_at[k] == 0)
            fail("%s:%zu: the file ends, and no line says %s (%s)", path, number, KEYS[k].name, KEYS[k].allowed);
    free(line);
    fclose(file);
}
