/* SPDX-License-Identifier: MIT */
/* A program in fcore's place that only answers: what a job of fcdisc takes over it is Python's part. Each directory but the root is missing. */
#include <stdio.h>
#include <stdlib.h>
#include <string.h>

enum { MOST = 1 << 25 }; /* more than a script has */

static const char *answer(const char *line)
{
    if (strncmp(line, "check\n", 6) == 0)
        return "files 0 dirs 1 lost 0 holes 1 free 160000000 unsorted 0 parents 0\nok\n";
    if (strncmp(line, "cat $.", 6) == 0)
        return "error 3 NotFound\n";
    return "ok\n";
}

int main(void)
{
    char *script = malloc(MOST + 1);
    if (!script)
        return 7;
    script[fread(script, 1, MOST, stdin)] = 0;
    for (char *line = script; line && *line; line = strchr(line, '\n') ? strchr(line, '\n') + 1 : NULL)
        fputs(answer(line), stdout);
    return 0;
}
