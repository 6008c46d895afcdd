/* The smallest host: it is compiled with what pkg-config says of an installed library, starts a controller and opens a session. */
#include <serifladder.h>

#include <stdio.h>
#include <string.h>

static uint8_t table[SERIFLADDER_TABLE_SIZE], output[SERIFLADDER_OUTPUT_SIZE], answer[SERIFLADDER_ANSWER_SIZE];

int main(void)
{
    static const char STARTED[] = "00200001001         ";
    uint8_t settings[SERIFLADDER_RECORD_HEADER + 33] = { 33, 0, SERIFLADDER_SETTINGS, 0, 12, 0, 3, 1 };
    memcpy(settings + 8, "LINE4                    ", 25);
    if (serifladder_start(table, sizeof table, settings, sizeof settings, answer, sizeof answer) != SERIFLADDER_DONE
        || serifladder_open(table, sizeof table, output, sizeof output, 0, answer, sizeof answer) != SERIFLADDER_DONE
        || serifladder_bytes(table, sizeof table, output, sizeof output, 0, (const uint8_t *)STARTED, sizeof STARTED,
                             answer, sizeof answer) != SERIFLADDER_DONE)
        return 1;
    puts((const char *)output + SERIFLADDER_RECORD_HEADER);
    return 0;
}
