void Print(const char *text);
void PrintNumber(long n);
