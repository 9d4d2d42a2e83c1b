// A read by a null pointer.
#include "start.h"

struct node {
    long value;
    struct node *next;
};

struct node *volatile first;

int main(void)
{
    return (int)(long)first->next;
}
