/* Strings by first-faulting loads: their lengths, a character's place, comparison and copying, up to the last byte
   before a page that isn't mapped. The pages come from mmap; every second one is given back. */
#include "guest.h"
#include <arm_sve.h>

enum { PAGE = 4096 };

static NOINLINE u64 length(const char *s)
{
    u64 at = 0;
    for (;;) {
        svsetffr();
        svuint8_t c = svldff1(svptrue_b8(), (const u8 *)s + at);
        svbool_t read = svrdffr();
        svbool_t zero = svcmpeq(read, c, 0);
        if (svptest_any(svptrue_b8(), zero))
            return at + svcntp_b8(read, svbrkb_z(read, zero));
        at += svcntp_b8(svptrue_b8(), read);
    }
}

/* the place of the first such character, or -1 */
static NOINLINE i64 find(const char *s, char wanted)
{
    u64 at = 0;
    for (;;) {
        svsetffr();
        svuint8_t c = svldff1(svptrue_b8(), (const u8 *)s + at);
        svbool_t read = svrdffr();
        svbool_t stop = svorr_z(read, svcmpeq(read, c, 0), svcmpeq(read, c, (u8)wanted));
        if (svptest_any(svptrue_b8(), stop)) {
            svbool_t before = svbrkb_z(read, stop);
            u64 k = svcntp_b8(read, before);
            u8 met = svlasta(before, c);
            if (!svptest_any(svptrue_b8(), before))
                met = (u8)s[at];
            return met == (u8)wanted ? (i64)(at + k) : -1;
        }
        at += svcntp_b8(svptrue_b8(), read);
    }
}

static NOINLINE i32 compare(const char *s, const char *t)
{
    u64 at = 0;
    for (;;) {
        svsetffr();
        svuint8_t a = svldff1(svptrue_b8(), (const u8 *)s + at);
        svuint8_t b = svldff1(svptrue_b8(), (const u8 *)t + at);
        svbool_t read = svrdffr();
        svbool_t stop = svorr_z(read, svcmpne(read, a, b), svcmpeq(read, a, 0));
        if (svptest_any(svptrue_b8(), stop)) {
            u64 k = at + svcntp_b8(read, svbrkb_z(read, stop));
            return (u8)s[k] - (u8)t[k];
        }
        at += svcntp_b8(svptrue_b8(), read);
    }
}

static NOINLINE u64 copy(char *to, const char *s)
{
    u64 at = 0;
    for (;;) {
        svsetffr();
        svuint8_t c = svldff1(svptrue_b8(), (const u8 *)s + at);
        svbool_t read = svrdffr();
        svbool_t zero = svcmpeq(read, c, 0);
        svbool_t wanted = svbrka_z(read, zero);
        svst1(wanted, (u8 *)to + at, c);
        at += svcntp_b8(read, wanted);
        if (svptest_any(svptrue_b8(), zero))
            return at - 1;
    }
}

/* how many bytes can be read from an address on, by loads that don't fault at all */
static NOINLINE u64 readable(const u8 *from)
{
    u64 at = 0;
    for (;;) {
        svsetffr();
        svuint8_t c = svldnf1(svptrue_b8(), from + at);
        svbool_t read = svrdffr();
        u64 n = svcntp_b8(svptrue_b8(), read);
        (void)c;
        at += n;
        if (n < svcntb())
            return at;
    }
}

/* a page with none behind it */
static char *lone_page(void)
{
    i64 two = system_call(SYS_MMAP, 0, 2 * PAGE, 3, 0x22);
    system_call(SYS_MUNMAP, two + PAGE, PAGE, 0, 0);
    return (char *)two;
}

static void write_text(char *to, u64 count, u32 kind)
{
    for (u64 i = 0; i < count; i++) {
        __asm__ volatile("");
        to[i] = (char)('a' + (i * kind + i / 7) % 26);
    }
    to[count] = 0;
}

int main(void)
{
    static const u16 sizes[] = {0, 1, 2, 7, 15, 16, 17, 31, 47, 48, 63, 64, 100, 255, 256, 257, 511, 1000, 4000};
    char *one = lone_page(), *two = lone_page();
    i64 sum = 0;
    for (u32 k = 0; k < COUNT(sizes); k++) {
        u64 n = sizes[k];
        char *s = one + PAGE - 1 - n;
        char *t = two + PAGE - 1 - n;
        write_text(s, n, 5);
        print("length", (i64)length(s));
        print("q", find(s, 'q'));
        print("upper", find(s, 'Q'));
        print("zero", find(s, 0));
        print("copied", (i64)copy(t, s));
        print("compared", compare(s, t));
        if (n > 0) {
            t[n - 1] = (char)(t[n - 1] + 1);
            print("less", compare(s, t));
            print("greater", compare(t, s));
            print("shorter", compare(s + n, t) < 0);
        }
        sum += (i64)length(s) + find(s, 'q');
    }
    print("readable", (i64)readable((const u8 *)one + 1234));
    print_hash("page", one, PAGE);
    flush();
    return (int)(sum & 127);
}
