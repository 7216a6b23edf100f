/* The capital of a small letter, and every other character as it is. */
int upper(int c)
{
    return c >= 'a' && c <= 'z' ? c - 'a' + 'A' : c;
}
