/* Prints the records of a stream on standard input, a line each, as the program `perfrec` of the
 * library does, with the same arguments and statuses: from flat frames alone. */
#include <stdlib.h>
#include "text.h"

int main(int count, char **words)
{
    struct command command;
    size_t len;
    uint8_t *bytes;
    int status;
    if (!read_command(count - 1, words + 1, &command)) {
        fputs("usage: perfrec little|big|native LIMIT [attr]\n", stderr);
        return 2;
    }
    bytes = read_file(stdin, &len);
    if (bytes == NULL || ferror(stdin)) {
        return 3;
    }
    status = print_run(stdout, &command, bytes, len);
    free(bytes);
    return fflush(stdout) == 0 ? status : 3;
}
