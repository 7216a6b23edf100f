/* Joins words, turns them round, compares them, and writes what comes of it. */
int putchar(int c);

static char joined[512];

static int length(const char *s)
{
    const char *end = s;
    while (*end)
        end++;
    return end - s;
}

static void append(char *to, const char *from)
{
    to += length(to);
    while ((*to++ = *from++) != 0)
        ;
}

static void turn(char *first, char *last)
{
    while (first < last) {
        char moved = *first;
        *first++ = *last;
        *last-- = moved;
    }
}

static int compare(const char *a, const char *b)
{
    while (*a && *a == *b) {
        a++;
        b++;
    }
    return *a - *b;
}

static void write(const char *s)
{
    while (*s)
        putchar(*s++);
    putchar('\n');
}

int main(void)
{
    int before = 0;
    for (int k = 0; k < 40; k++) {
        append(joined, k % 2 ? "puzzle" : "piece ");
        if (k % 8 == 7)
            turn(joined, joined + length(joined) - 1);
        for (int i = 0; joined[i]; i++)
            before += compare(joined + i, "piece") < 0;
    }
    write(joined);
    return before;
}
