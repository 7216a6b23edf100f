/* Ends with the number of steps, modulo 256, that the longest chain from below 5,000 takes to 1. */
int steps(int n)
{
    int count = 0;
    while (n != 1) {
        n = n % 2 == 0 ? n / 2 : 3 * n + 1;
        count++;
    }
    return count;
}

int main(void)
{
    int longest = 0;
    for (int n = 1; n < 5000; n++) {
        int count = steps(n);
        if (count > longest)
            longest = count;
    }
    return longest;
}
