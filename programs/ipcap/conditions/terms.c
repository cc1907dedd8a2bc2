#include "conditions/terms.h"

#include <stdio.h>
#include <string.h>

#include <wolfaren.h>

enum { LINE_LEN = 120 };

/* Prints a text in lines of at most LINE_LEN, of which those after the first are indented by so many spaces. */
static void print_lines(const char *text, int indent)
{
    int column = indent;
    while (*text) {
        int len = (int)strcspn(text, " ");
        if (column + 1 + len > LINE_LEN) column = printf("\n%*s", indent, "") - 1;
        if (column > indent) column += printf(" ");
        column += printf("%.*s", len, text);
        text += len + (int)strspn(text + len, " ");
    }
    putchar('\n');
}

void print_terms(void)
{
    printf("%-18s  %-45s  %s\n", "term", "meaning", "example");
    for (uint8_t i = 0; *wolfaren_term(i); i++)
        printf("%-18s  %-45s  %s\n", wolfaren_term(i), wolfaren_term_meaning(i), wolfaren_term_example(i));
    putchar('\n');
    for (uint8_t i = 0; *wolfaren_argument(i); i++) {
        printf("%-10s", wolfaren_argument(i));
        print_lines(wolfaren_argument_meaning(i), 10);
    }
    for (uint8_t i = 0; *wolfaren_term_note(i); i++) {
        putchar('\n');
        print_lines(wolfaren_term_note(i), 0);
    }
}
