/* 10,000,000 turns of arithmetic on ints. */
int main(void)
{
    int i, sum = 0;

    for (i = 0; i < 10000000; ++i)
        sum = ((sum * 5 + i) & 16777215) ^ (i >> 3);
    return sum & 127;
}
