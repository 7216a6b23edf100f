/* Counts in four nested loops, and ends with the low bits of what they come to. */
int main(void)
{
    int n = 0;
    for (int a = 0; a < 20; a++)
        for (int b = 0; b < 20; b++)
            for (int c = 0; c < 20; c++)
                for (int d = 0; d < 20; d++)
                    n += a ^ b - c | d;
    return n;
}
