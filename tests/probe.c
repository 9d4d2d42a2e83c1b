// A program that does what its first argument says, for the tests of the tools.
//
//   (none)   writes a line to each of both files and exits with 3
//   args     writes its arguments, one a line
//   cat      copies its input to its output
//   ask      writes a question to file 2, without a newline, reads up to 100 bytes and writes them to file 1
//   bytes    writes each of the 256 bytes to file 2, without a newline behind them
//   report   writes to file 2 what looks like the lines at the end of a run, and exits with 0
//   trap     writes a word to file 2, without a newline, and meets an undefined instruction
//   spin     writes a word to file 2, without a newline, and never ends
//
// It is built by: make -C examples ../tests/probe.elf

#include <arm_sve.h>
#include "guest.h"

static char buffer[4096];

static void say(const char *text)
{
    write_bytes(2, text, text_length(text));
}

static int is(const char *word, const char *other)
{
    while (*word != 0 && *word == *other) {
        word++;
        other++;
    }
    return *word == *other;
}

static void put_all_input(void)
{
    long count;

    while ((count = read_bytes(0, buffer, sizeof buffer)) > 0)
        write_bytes(1, buffer, (unsigned long)count);
}

static void ask(void)
{
    long count;

    say("what is it? ");
    count = read_bytes(0, buffer, 100);
    if (count > 0)
        write_bytes(1, buffer, (unsigned long)count);
}

static void put_bytes(void)
{
    for (int i = 0; i < 256; i++)
        buffer[i] = (char)i;
    write_bytes(2, buffer, 256);
}

// In decimal, to file 2.
static void say_number(unsigned long number)
{
    char digit = (char)('0' + number % 10);

    if (number >= 10)
        say_number(number / 10);
    write_bytes(2, &digit, 1);
}

static void say_register(const char *name, unsigned long digits)
{
    say(name);
    say(" ");
    while (digits-- > 0)
        say("0");
    say("\n");
}

static void say_registers(const char *letter, unsigned long count, unsigned long digits)
{
    for (unsigned long i = 0; i < count; i++) {
        say(letter);
        say_number(i);
        say_register("", digits);
    }
}

static void put_report(void)
{
    say("exit 0 after 1 steps\n");
    say_registers("x", 31, 16);
    say_register("sp", 16);
    say_register("pc", 16);
    say_register("nzcv", 4);
    say_register("tpidr", 16);
    say("vl ");
    say_number(svcntb() * 8);
    say("\n");
    say_registers("z", 32, svcntb() * 2);
    say_registers("p", 16, svcntb() / 4);
    say_register("ffr", svcntb() / 4);
}

int main(int count, char **words)
{
    const char *what = count > 1 ? words[1] : "";

    if (is(what, "args")) {
        for (int i = 1; i < count; i++) {
            put_text(words[i]);
            put_text("\n");
        }
        return 0;
    }
    if (is(what, "cat"))
        put_all_input();
    else if (is(what, "ask"))
        ask();
    else if (is(what, "bytes"))
        put_bytes();
    else if (is(what, "report"))
        put_report();
    else if (is(what, "trap")) {
        say("before");
        __asm__ volatile(".inst 0");
    } else if (is(what, "spin")) {
        say("before");
        for (;;)
            __asm__ volatile("");
    } else {
        put_text("to the output\n");
        say("to the errors\n");
        return 3;
    }
    return 0;
}
