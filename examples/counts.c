/* Counts the divisors of every number below 8,000, and ends with the greatest of these counts. */
static short counts[8000];

int main(void)
{
    int greatest = 0;
    for (int divisor = 1; divisor < 8000; divisor++)
        for (int multiple = divisor; multiple < 8000; multiple += divisor)
            counts[multiple]++;
    for (int n = 1; n < 8000; n++)
        if (counts[n] > greatest)
            greatest = counts[n];
    return greatest;
}
