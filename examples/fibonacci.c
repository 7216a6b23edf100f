/* Writes the Fibonacci number of 24, by recursion, and ends with 0. */
int putchar(int c);

static void number(int n)
{
    if (n > 9)
        number(n / 10);
    putchar('0' + n % 10);
}

static int fibonacci(int n)
{
    if (n < 2)
        return n;
    return fibonacci(n - 1) + fibonacci(n - 2);
}

int main(void)
{
    number(fibonacci(24));
    putchar('\n');
    return 0;
}
