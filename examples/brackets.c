/* Ends with 0 where the brackets of the input are balanced, and else with the number of the byte that is wrong. */
#include <stdio.h>
#include <stdlib.h>

static char open[256];
static int depth;
static int place;

static char partner(char bracket)
{
    switch (bracket) {
    case ')':
        return '(';
    case ']':
        return '[';
    case '}':
        return '{';
    default:
        return 0;
    }
}

static void judge(char c)
{
    switch (c) {
    case '(':
    case '[':
    case '{':
        if (depth == 256)
            exit(place);
        open[depth++] = c;
        break;
    case ')':
    case ']':
    case '}':
        if (depth == 0 || open[--depth] != partner(c))
            exit(place);
    }
}

int main(void)
{
    int c;
    while ((c = getchar()) != -1) {
        place++;
        judge(c);
    }
    return depth == 0 ? 0 : place;
}
