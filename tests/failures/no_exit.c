// A program that doesn't end itself.
__attribute__((noreturn)) void _start(void)
{
    __asm__("mov x0, #0");
    __builtin_unreachable();
}
