/* Who may read the files and speak to the tool's socket: modes and groups, as options give them. */
#include "host.h"

#include <stdio.h>
#include <stdlib.h>
#include <string.h>
#include <sys/socket.h>
#include <sys/stat.h>
#include <sys/un.h>
#include <unistd.h>

bool read_mode(const char *text, mode_t *mode)
{
    mode_t read = 0;
    if (*text == '\0' || strlen(text) > 4)
        return false;
    for (; *text != '\0'; text++) {
        if (*text < '0' || *text > '7')
            return false;
        read = read * 8 + (mode_t)(*text - '0');
    }
    *mode = read;
    return read <= 0777;
}

/* The system's own search would need its libraries in a program that is linked whole. */
bool read_group(const char *text, gid_t *group)
{
    uint64_t number;
    size_t length = strlen(text), room = 0;
    char *line = NULL;
    bool found = read_number(text, UINT32_MAX - 1, &number);
    FILE *groups = found ? NULL : fopen("/etc/group", "r");
    while (groups != NULL && !found && getline(&line, &room, groups) >= 0) {
        char *password = line + length + 1, *id = strncmp(line, text, length) == 0 && line[length] == ':' ? strchr(password, ':') : NULL;
        if (id != NULL) {
            id[1 + strcspn(id + 1, ":\n")] = '\0';
            found = read_number(id + 1, UINT32_MAX - 1, &number);
        }
    }
    if (groups != NULL)
        fclose(groups);
    free(line);
    if (found)
        *group = (gid_t)number;
    return found;
}

bool bind_with(int socket, const struct sockaddr_un *address, const struct socket_access *access)
{
    mode_t before = umask(0777 & ~access->mode);
    bool bound = bind(socket, (const struct sockaddr *)address, sizeof *address) == 0;
    umask(before);
    return bound && (access->group == NO_GROUP || chown(address->sun_path, (uid_t)-1, access->group) == 0);
}
