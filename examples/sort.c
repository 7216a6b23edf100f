/* Sorts the bytes of the input, and writes them. */
#include <stdio.h>

static char bytes[4096];

static void sort(char *a, int n)
{
    for (int i = 1; i < n; i++) {
        char moved = a[i];
        int k = i;
        while (k > 0 && a[k - 1] > moved) {
            a[k] = a[k - 1];
            k--;
        }
        a[k] = moved;
    }
}

int main(void)
{
    int n = 0, c;
    while (n < 4096 && (c = getchar()) != -1)
        bytes[n++] = c;
    sort(bytes, n);
    for (int i = 0; i < n; i++)
        putchar(bytes[i]);
    return 0;
}
