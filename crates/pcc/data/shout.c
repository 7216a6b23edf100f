/* Writes its input in capitals, and doesn't end. */
int upper(int c);

int main(void)
{
    int c;
    while ((c = getchar()) != -1)
        putchar(upper(c));
    while (1)
        ;
    return 0;
}
