/* A tool: tells the host of one tightening and shows the answer.    tool SOCKET */
#include <stdio.h>
#include <string.h>
#include <sys/socket.h>
#include <sys/un.h>
#include <time.h>

static FILE *host;

static void number(unsigned size, unsigned long value)
{
    for (; size > 0; size--, value >>= 8)
        putc((int)(value & 255), host);
}

int main(int count, char **arguments)
{
    struct sockaddr_un address = { .sun_family = AF_UNIX };
    /* torque, angle: least, most, target, reached; of the first three 4294967295 is one that was never set */
    const unsigned long reached[] = { 2250, 2750, 2500, 2493, 70, 110, 90, 88 };
    char now[20], answer[80] = "";
    int link = socket(AF_UNIX, SOCK_STREAM, 0);
    strftime(now, sizeof now, "%Y-%m-%d:%H:%M:%S", localtime(&(time_t){ time(NULL) }));
    strncpy(address.sun_path, count > 1 ? arguments[1] : "", sizeof address.sun_path - 1);
    if (connect(link, (struct sockaddr *)&address, sizeof address) != 0 || (host = fdopen(link, "r+")) == NULL)
        return perror("tool"), 1;
    number(2, 106), number(2, 1);                           /* a house record: its payload's length, its kind */
    fprintf(host, "%-25s", "BODY 000001");                  /* the identifier; spaces for the one in force */
    number(1, 1), number(2, 7), number(2, 4), number(2, 1); /* job, parameter set, batch size, batch counter */
    number(1, 1), number(1, 1), number(1, 1);               /* the tightening, its torque and its angle are OK */
    for (unsigned i = 0; i < 8; i++)
        number(4, reached[i]);
    fprintf(host, "%s%s", now, now), number(1, 0);          /* when; when the set was changed; batch status */
    if (fflush(host) == 0 && fgets(answer, sizeof answer, host) != NULL)
        fputs(answer, stdout);                              /* 0 done, taken by 0 2, number 17 */
    return strncmp(answer, "0 ", 2) != 0;
}
