/* Calls that are read, one a line: the name and the arguments, as text.h has them. Each is answered
   by a line: the status, and the arguments afterwards. */
#include "calls.h"
#include "text.h"

#include <stdio.h>
#include <stdlib.h>
#include <string.h>

enum { MOST_LINE = 4 * MOST_BYTES };

static const struct call *call_named(const char *name)
{
    for (size_t i = 0; i < call_count; i++)
        if (strcmp(calls[i].name, name) == 0)
            return &calls[i];
    return NULL;
}

/* Answers a line. Gives whether it is a call. */
static int answer(char *line, struct argument *given)
{
    const struct call *call = call_named(strtok(line, " \n"));
    size_t count = call == NULL ? 0 : argument_count(call);
    char word[16];
    for (size_t i = 0; i < count; i++) {
        const char *text = strtok(NULL, " \n");
        if (text == NULL || !read_argument(text, &call->parameters[i], &given[i]))
            return 0;
    }
    if (call == NULL || strtok(NULL, " \n") != NULL)
        return 0;
    snprintf(word, sizeof word, "%u ", (unsigned)call->library(given));
    print_arguments(word, given, call->parameters, count);
    printf("\n");
    return 1;
}

int main(void)
{
    static char line[MOST_LINE];
    struct argument given[MOST_ARGUMENTS] = {{0}};
    for (size_t i = 0; i < MOST_ARGUMENTS; i++)
        if ((given[i].bytes = malloc(MOST_BYTES)) == NULL)
            return 1;
    while (fgets(line, sizeof line, stdin) != NULL)
        if (!answer(line, given))
            return 2;
    for (size_t i = 0; i < MOST_ARGUMENTS; i++)
        free(given[i].bytes);
    return 0;
}
