// A program that reads its input, and writes a word.
#include "../../examples/guest.h"
#include "start.h"

int main(void)
{
    char bytes[8];

    read_bytes(0, bytes, sizeof bytes);
    put_text("read\n");
    return 0;
}
