// A program that ends itself.
#include "start.h"

int main(void)
{
    return 0;
}
