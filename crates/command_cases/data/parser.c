/* A calculator that reads its input one byte a call: lines of expressions over whole numbers of 64 bits with variables,
   functions and conditions, each answered by a line or by an error that names its place. Its arguments set variables,
   as `a=5`. */
#include "guest.h"

enum { TOKENS = 128 };

struct token {
    char kind;
    u32 place;
    i64 value;
};

static struct token tokens[TOKENS];
static u32 count, at, place;
static i64 variables[26];
static const char *error;
static u32 error_place;
static char ahead;
static int at_end;

/* one byte a call: an input that gives few at once mustn't matter */
static NOINLINE char read_byte(void)
{
    char c = 0;
    if (!at_end && system_call(SYS_READ, 0, (i64)&c, 1, 0) != 1)
        at_end = 1;
    return at_end ? '\n' : c;
}

static void advance(void)
{
    ahead = read_byte();
    place++;
}

static void fail(const char *why, u32 where)
{
    if (!error) {
        error = why;
        error_place = where;
    }
}

static int is_digit(char c)
{
    return c >= '0' && c <= '9';
}

static int is_letter(char c)
{
    return c >= 'a' && c <= 'z';
}

static void push(char kind, u32 where, i64 value)
{
    if (count == TOKENS) {
        fail("too long", where);
        return;
    }
    tokens[count].kind = kind;
    tokens[count].place = where;
    tokens[count].value = value;
    count++;
}

static NOINLINE void read_line(void)
{
    count = 0;
    place = 0;
    error = 0;
    advance();
    while (ahead != '\n') {
        u32 where = place;
        if (ahead == ' ')
            advance();
        else if (is_digit(ahead)) {
            u64 n = 0;
            while (is_digit(ahead)) {
                n = n * 10 + (u64)(ahead - '0');
                advance();
            }
            push('0', where, (i64)n);
        } else if (is_letter(ahead)) {
            char name[4] = {ahead, 0, 0, 0};
            u32 k = 1;
            advance();
            while (is_letter(ahead)) {
                if (k < 3)
                    name[k++] = ahead;
                advance();
            }
            if (k == 1)
                push('a', where, name[0] - 'a');
            else if (name[0] == 'm' && name[1] == 'a')
                push('M', where, 0);
            else if (name[0] == 'g' && name[1] == 'c')
                push('G', where, 0);
            else
                fail("no such name", where);
        } else {
            push(ahead, where, 0);
            advance();
        }
    }
    push('$', place, 0);
}

static char peek(void)
{
    return tokens[at].kind;
}

static i64 sum(u32 deep);

static void expect(char kind)
{
    if (peek() == kind)
        at++;
    else
        fail("unexpected", tokens[at].place);
}

static i64 call(char kind, u32 deep)
{
    expect('(');
    i64 a = sum(deep);
    expect(',');
    i64 b = sum(deep);
    expect(')');
    if (kind == 'M')
        return a > b ? a : b;
    while (b != 0) {
        i64 t = a % b;
        a = b;
        b = t;
    }
    return a;
}

static NOINLINE i64 atom(u32 deep)
{
    struct token t = tokens[at];
    if (deep > 40) {
        fail("too deep", t.place);
        return 0;
    }
    if (t.kind != '$')
        at++;
    switch (t.kind) {
    case '0':
        return t.value;
    case 'a':
        return variables[t.value];
    case '-':
        return (i64)(0 - (u64)atom(deep + 1));
    case '~':
        return ~atom(deep + 1);
    case '(': {
        i64 v = sum(deep + 1);
        expect(')');
        return v;
    }
    case 'M':
    case 'G':
        return call(t.kind, deep + 1);
    default:
        fail("unexpected", t.place);
        return 0;
    }
}

static NOINLINE i64 product(u32 deep)
{
    i64 v = atom(deep);
    for (;;) {
        char op = peek();
        if (op != '*' && op != '/' && op != '%')
            return v;
        u32 where = tokens[at++].place;
        i64 w = atom(deep);
        if (op == '*')
            v = (i64)((u64)v * (u64)w);
        else if (w == 0)
            fail("division by zero", where);
        else if (w == -1)
            v = op == '/' ? (i64)(0 - (u64)v) : 0;
        else
            v = op == '/' ? v / w : v % w;
    }
}

static NOINLINE i64 sum(u32 deep)
{
    i64 v = product(deep);
    for (;;) {
        char op = peek();
        if (op != '+' && op != '-' && op != '<' && op != '&' && op != '|')
            return v;
        at++;
        i64 w = product(deep);
        v = op == '+' ? (i64)((u64)v + (u64)w) : op == '-' ? (i64)((u64)v - (u64)w)
            : op == '<' ? v < w : op == '&' ? (v & w) : (v | w);
    }
}

static NOINLINE u32 answer(void)
{
    at = 0;
    if (count == 1 && !error)
        return 0;
    i64 to = -1;
    if (count > 2 && tokens[0].kind == 'a' && tokens[1].kind == '=') {
        to = tokens[0].value;
        at = 2;
    }
    i64 v = error ? 0 : sum(0);
    if (!error && peek() != '$')
        fail("unexpected", tokens[at].place);
    if (error) {
        put_text(error);
        print(" at", error_place);
        return 1;
    }
    if (to >= 0)
        variables[to] = v;
    put_number(v);
    put('\n');
    return 0;
}

/* an argument as a=5 or a=-5 */
static void set(const char *word)
{
    if (!is_letter(word[0]) || word[1] != '=') {
        put_text("what is ");
        put_text(word);
        put('\n');
        return;
    }
    const char *c = word + 2;
    i64 sign = 1, n = 0;
    if (*c == '-') {
        sign = -1;
        c++;
    }
    while (is_digit(*c))
        n = n * 10 + (*c++ - '0');
    variables[word[0] - 'a'] = sign * n;
}

int main(int argc, char **argv)
{
    u32 errors = 0, lines = 0;
    print("arguments", argc - 1);
    for (int k = 1; k < argc; k++)
        set(argv[k]);
    for (;;) {
        read_line();
        if (at_end && count == 1)
            break;
        lines++;
        errors += answer();
        flush();
        if (at_end)
            break;
    }
    print("lines", lines);
    print("errors", errors);
    for (u32 k = 0; k < 26; k++)
        if (variables[k] != 0) {
            put((char)('a' + k));
            print(" is", variables[k]);
        }
    flush();
    return (int)errors;
}
