/* What the test of gdb-pcc.py looks at: locals of each kind, and both traps. */
int putchar(int c);
int getchar(void);

static int room[4] = {2, 3, 5, 7};

static int sum(const int *a, int n)
{
    int total = 0;
    for (int k = 0; k < n; k++)
        total += a[k];
    return total;
}

static int share(int n, int of)
{
    int half = n / 2;
    return half / of;
}

int main(void)
{
    char letters[3] = "ab";
    const char *none = 0;
    char c = -7;
    short s = -300;
    int big = -2000000000;
    const char *second = letters + 1;
    int *last = room + 3;
    int got = getchar();

    if (got == 't')
        putchar('0' + sum(room + 1, 4));
    if (got == 'd')
        share(big, c + 7);
    putchar(*second + *last + c + (none == 0) + s + big);
    return sum(room, 4);
}
