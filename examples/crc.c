/* Writes the CRC-32 of the input (IEEE 802.3, reflected, polynomial EDB88320) in hexadecimal. */
#include <stdio.h>

static int table[256];

/* Shifts to the right by one bit, with a zero from above: the language has only shifts that keep the sign. */
static int halved(int word)
{
    return word >> 1 & 0x7fffffff;
}

static void fill(void)
{
    for (int byte = 0; byte < 256; byte++) {
        int word = byte;
        for (int bit = 0; bit < 8; bit++)
            word = word & 1 ? halved(word) ^ (0x6db88320 | -0x7fffffff - 1) : halved(word);
        table[byte] = word;
    }
}

int main(void)
{
    int c, sum = -1;
    fill();
    while ((c = getchar()) != EOF)
        sum = table[(sum ^ c) & 255] ^ (sum >> 8 & 0xffffff);
    sum = ~sum;
    for (int shift = 28; shift >= 0; shift -= 4)
        putchar("0123456789abcdef"[sum >> shift & 15]);
    putchar('\n');
    return 0;
}
