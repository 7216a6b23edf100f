/* Leaves C comments out of the input, by a machine with a state for each place that the text can be at. */
#include <stdio.h>
#include <stdlib.h>

#define CODE 0      /* outside of all that follows */
#define SLASH 1     /* behind a slash */
#define COMMENT 2   /* inside a comment */
#define STAR 3      /* inside a comment, behind a star */
#define QUOTED 4    /* inside a string or a character constant */
#define ESCAPED 5   /* there, behind a backslash */

static int state;
static int quote;

static void code(int c)
{
    switch (c) {
    case '/':
        state = SLASH;
        break;
    case '"':
    case '\'':
        quote = c;
        state = QUOTED;
        putchar(c);
        break;
    default:
        state = CODE;
        putchar(c);
    }
}

static void step(int c)
{
    switch (state) {
    case CODE:
        code(c);
        break;
    case SLASH:
        if (c == '*') {
            state = COMMENT;
            putchar(' ');
        } else {
            putchar('/');
            code(c);
        }
        break;
    case COMMENT:
        state = c == '*' ? STAR : COMMENT;
        break;
    case STAR:
        state = c == '/' ? CODE : c == '*' ? STAR : COMMENT;
        break;
    case QUOTED:
        putchar(c);
        state = c == '\\' ? ESCAPED : c == quote ? CODE : QUOTED;
        break;
    case ESCAPED:
        putchar(c);
        state = QUOTED;
    }
}

int main(void)
{
    int c;
    while ((c = getchar()) != EOF)
        step(c);
    if (state == SLASH)
        putchar('/');
    return state == COMMENT || state == STAR ? EXIT_FAILURE : EXIT_SUCCESS;
}
