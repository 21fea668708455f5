/* Switches with loops, blocks and declarations (3.6.4.2, 3.6.6). */
#define CHECK(number, condition) do { if (!(condition)) return number; } while (0)

int in_loop(void)
{
    int i, t = 0;
    for (i = 0; i < 10; i++) {
        switch (i) {
        case 2: continue;
        case 4: break;
        case 7: i++;
        case 9: t += 100; break;
        default: t++; continue;
        }
        t += 10;
    }
    return t;
}

int loop_inside(int n)
{
    int t = 0;
    switch (n) {
    case 1:
        while (1) {
            if (++t > 3)
                break;
        }
        t += 10;
    case 2:
        do {
            t++;
            if (t % 2)
                continue;
            break;
        } while (t < 100);
        break;
    case 3:
        for (;; t += 2)
            if (t > 10)
                return t;
    }
    return t + 1000;
}

int head(int n)
{
    int outer = 5;
    switch (n) {
        int inner = 100;
    case 0:
        inner = 1;
        return inner + outer;
    case 1:
        inner = 2;
    case 2: {
        int inner = 3;
        outer = inner;
        break;
    }
    default:
        inner = 7;
        outer = inner;
    }
    return outer;
}

int unreachable(int n)
{
    int t = 0;
    switch (n) {
        t = 100;
    case 1: t++;
    }
    return t;
}

int blocks(int n)
{
    int t = 0;
    switch (n) {
    case 0: { t++; }
    case 1: { t += 2; break; }
    case 2: if (t) ; else t = 5;
    case 3: ;
    }
    return t;
}

int dispatched(char *program)
{
    int stack[8], n = 0, steps = 0;
    for (;;) {
        if (++steps > 50)
            return -1;
        switch (*program++) {
        case '0': case '1': case '2': case '3': case '4': case '5': case '6': case '7': case '8': case '9':
            stack[n++] = program[-1] - '0';
            continue;
        case '+': n--; stack[n - 1] += stack[n]; break;
        case '-': n--; stack[n - 1] -= stack[n]; break;
        case '*': n--; stack[n - 1] *= stack[n]; break;
        case 'd': stack[n] = stack[n - 1]; n++; break;
        case '\0': return stack[0];
        default: return -2;
        }
    }
}

int main(void)
{
    int i, t = 0;

    CHECK(1, in_loop() == 1 + 1 + 1 + 10 + 1 + 1 + 110 + 110);
    CHECK(2, loop_inside(1) == 1016 && loop_inside(2) == 1002 && loop_inside(3) == 12 && loop_inside(4) == 1000);
    CHECK(3, head(0) == 6 && head(1) == 3 && head(2) == 3 && head(3) == 7);
    CHECK(4, unreachable(1) == 1 && unreachable(2) == 0);
    CHECK(5, blocks(0) == 3 && blocks(1) == 2 && blocks(2) == 5 && blocks(3) == 0);
    CHECK(6, dispatched("34+5*") == 35 && dispatched("9d*1-") == 80 && dispatched("x") == -2 && dispatched("7") == 7);
    for (i = 0; i < 4; i++)
        switch (i) {
        case 1: t += 5; break;
        case 3: t += 7;
        }
    CHECK(7, t == 12 && i == 4);
    while (1) {
        switch (t) {
        case 12: t = 13; continue;
        case 13: break;
        }
        break;
    }
    CHECK(8, t == 13);
    if (t) switch (t) { case 13: t = 1; } else t = 2;
    CHECK(9, t == 1);
    do switch (t) { case 1: t = 2; continue; case 2: t = 3; } while (t < 3);
    CHECK(10, t == 3);
    return 0;
}
