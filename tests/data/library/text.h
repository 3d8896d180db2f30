/* Arguments as texts. */
#ifndef TEXT_H
#define TEXT_H

#include "calls.h"

/* Prints a word, and then arguments with a space between: bytes in hexadecimal, a hyphen for none,
   and numbers in decimal. */
void print_arguments(const char *word, const struct argument *given,
                     const struct parameter *parameters, size_t count);

/* Reads an argument of such a text. Gives whether it is one. */
int read_argument(const char *text, const struct parameter *parameter, struct argument *given);

#endif
