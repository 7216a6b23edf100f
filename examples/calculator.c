/* A small interpreter: evaluates each line of the input, an expression of numbers, `+ - * /` and parentheses, or an
   assignment to a letter, and writes its value. A line with a fault is answered by `?` and its place. */
#include <stdio.h>

#define LONGEST 80

static char line[LONGEST + 1];
static int at;              /* the place in the line that is read next */
static int fault;           /* the place of the line's first fault, counted from 1 */
static int values[26];

static int sum(void);

static void fail(void)
{
    if (!fault)
        fault = at + 1;
}

static char next(void)
{
    while (line[at] == ' ')
        at++;
    return line[at];
}

static int number(void)
{
    int n = 0;
    while (line[at] >= '0' && line[at] <= '9')
        n = n * 10 + (line[at++] - '0');
    return n;
}

static int value(void)
{
    char c = next();
    if (c >= '0' && c <= '9')
        return number();
    if (c >= 'a' && c <= 'z') {
        at++;
        return values[c - 'a'];
    }
    if (c == '-') {
        at++;
        return -value();
    }
    if (c != '(') {
        fail();
        return 0;
    }
    at++;
    int n = sum();
    if (next() == ')')
        at++;
    else
        fail();
    return n;
}

static int product(void)
{
    int n = value();
    for (;;)
        if (next() == '*') {
            at++;
            n *= value();
        } else if (next() == '/') {
            at++;
            int by = value();
            if (by == 0)
                fail();
            else
                n /= by;
        } else
            return n;
}

static int sum(void)
{
    int n = product();
    for (;;)
        if (next() == '+') {
            at++;
            n += product();
        } else if (next() == '-') {
            at++;
            n -= product();
        } else
            return n;
}

static int assigned(void)
{
    char name = next();
    int start = at;
    if (name >= 'a' && name <= 'z') {
        at++;
        if (next() == '=') {
            at++;
            int n = assigned();
            if (!fault)
                values[name - 'a'] = n;
            return n;
        }
    }
    at = start;
    return sum();
}

static void write(int n)
{
    char digits[11];
    int k = 0;
    int is_negative = n < 0;
    do {
        int digit = n % 10;
        digits[k++] = '0' + (digit < 0 ? -digit : digit);
        n /= 10;
    } while (n);
    if (is_negative)
        putchar('-');
    while (k > 0)
        putchar(digits[--k]);
}

/* Reads a line, and cuts off what is too much of it. Answers whether there is one. */
static int read(void)
{
    int c = getchar(), n = 0;
    if (c == EOF)
        return 0;
    for (; c != '\n' && c != EOF; c = getchar())
        if (n < LONGEST)
            line[n++] = c;
    line[n] = 0;
    return 1;
}

int main(void)
{
    int faults = 0;
    while (read()) {
        at = 0;
        fault = 0;
        int n = assigned();
        if (next())
            fail();
        if (fault) {
            putchar('?');
            n = fault;
            faults++;
        }
        write(n);
        putchar('\n');
    }
    return faults;
}
