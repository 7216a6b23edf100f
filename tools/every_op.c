/* Has each op of a map, for the tests of the scripts that read maps. It writes `acbacb:` and ends with 37, by gcc as well. */
int putchar(int c);
int getchar(void);
void exit(int status);

static int total = 5;
static short half = -3;
static char tiny = 7;
static int table[8] = {3, 1, 4, 1, 5, 9, 2, 6};
static short shorts[4] = {1, -2, 3, -4};
static char text[12] = "operations";

static int count(const char *p)
{
    const char *q = p;
    while (*q != 0)
        q++;
    return q - p;
}

static int mix(int a, int b, int c, int d)
{
    int e = a * b, f = c - d, g = a & b, h = c | d, i = a ^ d;
    int k = ~e, l = -f, m = e << 3, n = f >> b, o = e % 7, p = e / 3;
    return a + b + c + d + e + f + g + h + i + k + l + m + n + o + p;
}

static void fill(int *a, int n)
{
    for (int i = 0; i < n; i++)
        a[i] = i * i;
}

static int below(const int *a, const int *b)
{
    return a < b;
}

int main(void)
{
    int square[5];
    short pair[2];
    char letters[4] = "abc";
    char c = 'x';
    short s = 300;
    int flag = 0;
    fill(square, 5);
    fill(table, 3);
    pair[0] = s * 2;
    pair[1] = half;
    tiny = tiny + c;
    half = half - 1;
    total = total + mix(3, 2, 9, 4);
    text[0] = 'O';
    shorts[1] = pair[0];
    flag = total > 100 && tiny != 0 || !half;
    flag = flag + (square[2] == 4) + (c <= 'z') + (s >= 300) + (total < 7);
    flag = flag + below(square + 1, square + 3) + (square + 1 == square + 1);
    do {
        putchar(letters[flag % 3]);
        flag--;
    } while (flag > 0);
    c = getchar();
    switch (c) {
    case 'q':
        exit(9);
    case 'r':
        return total & 127;
    default:
        putchar(count(text) + '0');
    }
    putchar('\n');
    exit(total & 63);
    return 0;
}
