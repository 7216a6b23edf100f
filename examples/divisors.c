/* Ends with the sum, modulo 256, of the greatest common divisors of the numbers up to 200. */
int divisor(int a, int b)
{
    while (b != 0) {
        int rest = a % b;
        a = b;
        b = rest;
    }
    return a;
}

int main(void)
{
    int sum = 0;
    for (int a = 1; a <= 200; a++)
        for (int b = 1; b <= 200; b++)
            sum += divisor(a, b);
    return sum;
}
