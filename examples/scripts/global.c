/* Two globals, of which the file fills one and the other begins as zero: exits with 2 + 20 * 2. */
int added = 2;
int sums[21];

int main(void)
{
    for (int i = 1; i <= 20; i++)
        sums[i] = sums[i - 1] + added;
    return added + sums[20];
}
