/* Writes HE, and ends with 2. */
int main(void)
{
    int x = 70;
    int y = x + 2;
    putchar(y);
    putchar(x - 1);
    putchar(10);
    return y - x;
}
