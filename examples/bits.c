/* Ends with the number of bits, modulo 256, that are set in the numbers below 20,000. */
int bits(int n)
{
    int count = 0;
    for (; n != 0; n = n >> 1)
        count += n & 1;
    return count;
}

int main(void)
{
    int sum = 0;
    for (int n = 0; n < 20000; n++)
        sum += bits(n);
    return sum;
}
