/* Counts lines, words and bytes of the input. */
#include <stdio.h>

static int counts[3];

static void number(int n)
{
    char digits[10];
    int k = 0;
    do {
        digits[k++] = '0' + n % 10;
        n /= 10;
    } while (n > 0);
    while (k > 0)
        putchar(digits[--k]);
}

int main(void)
{
    int c, inside = 0;
    while ((c = getchar()) != -1) {
        counts[2]++;
        if (c == '\n')
            counts[0]++;
        if (c == ' ' || c == '\n' || c == '\t')
            inside = 0;
        else if (!inside) {
            inside = 1;
            counts[1]++;
        }
    }
    for (int k = 0; k < 3; k++) {
        number(counts[k]);
        putchar(k < 2 ? ' ' : '\n');
    }
    return 0;
}
