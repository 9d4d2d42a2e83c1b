// Floating point.
#include "start.h"

volatile double a = 1.5;

__attribute__((noinline)) double dot_product(double x, double y)
{
    return x * y;
}

int main(void)
{
    a = dot_product(a, a);
    return 0;
}
