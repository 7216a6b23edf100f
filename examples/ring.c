/* Writes the last eight lines of the input, by a ring buffer of 256 bytes: what is older is overwritten. */
#include <stdio.h>

static char ring[256];
static int first, held;

/* Puts a byte behind the newest, over the oldest one where the ring is full. */
static void put(char byte)
{
    ring[(first + held) & 255] = byte;
    if (held < 256)
        held++;
    else
        first = (first + 1) & 255;
}

/* Takes the oldest byte. */
static char take(void)
{
    char byte = ring[first];
    first = (first + 1) & 255;
    held--;
    return byte;
}

/* The number of lines that are held. */
static int lines(void)
{
    int count = 0;
    for (int k = 0; k < held; k++)
        count += ring[(first + k) & 255] == '\n';
    return count;
}

int main(void)
{
    int c;
    while ((c = getchar()) != EOF)
        put(c);
    for (int count = lines(); count > 8; )
        if (take() == '\n')
            count--;
    while (held > 0)
        putchar(take());
    return 0;
}
