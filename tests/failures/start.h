// Where a program of this folder begins: main is called, and its answer is the program's code.
int main(void);

__asm__(".globl _start\n"
        "_start:\n"
        "    mov x29, #0\n"
        "    mov x30, #0\n"
        "    bl main\n"
        "    mov x8, #93\n"
        "    svc #0\n");

// A word of data: a writable segment of zeros alone stands past the end of the file.
volatile int some_data = 1;
