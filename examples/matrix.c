/* Multiplies two matrices of 24 rows, and ends with the low bits of the sum of the product. */
static int a[576];
static int b[576];
static int c[576];

static void multiply(const int *left, const int *right, int *product, int n)
{
    for (int row = 0; row < n; row++)
        for (int column = 0; column < n; column++) {
            int sum = 0;
            for (int k = 0; k < n; k++)
                sum += left[row * n + k] * right[k * n + column];
            product[row * n + column] = sum;
        }
}

int main(void)
{
    int sum = 0;
    for (int k = 0; k < 576; k++) {
        a[k] = k * 7 % 31 - 15;
        b[k] = k * 11 % 29 - 14;
    }
    multiply(a, b, c, 24);
    for (int k = 0; k < 576; k++)
        sum ^= c[k] + k;
    return sum;
}
