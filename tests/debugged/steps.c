/* The sum of the squares of 0 to 7, by functions: a program to step through by the lines of its source. */
static int squares[8] = {1};

static int square(int n)
{
    int wide = n * n;
    return wide;
}

static int sum(const int *values, int count)
{
    int all = 0;
    for (int k = 0; k < count; k++)
        all += values[k];
    return all;
}

void begin(void)
{
    for (int k = 0; k < 8; k++)
        squares[k] = square(k);
    register long code __asm__("x0") = sum(squares, 8);
    register long call __asm__("x8") = 93;
    __asm__ volatile("svc #0" : : "r"(code), "r"(call));
}

/* Of the start there are no lines. */
__asm__(".section .text.start, \"ax\"\n"
        ".globl _start\n"
        "_start:\n"
        " mov x29, #0\n"
        " mov x30, #0\n"
        " bl begin\n"
        " udf #0\n"
        ".text\n");
