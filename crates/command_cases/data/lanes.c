/* The instructions on lanes and predicates by the intrinsics of the Arm C Language Extensions: each works on whole
   vectors of numbers that look random, under a predicate that looks random too, and a hash of what it leaves is
   printed. So what is printed differs with the vector length. */
#include "guest.h"
#include <arm_sve.h>
#include <stdint.h>

enum { MOST = 256 };

static u8 first[MOST], second[MOST], third[MOST], chosen[MOST], left[MOST];

static void fill(void)
{
    for (u32 i = 0; i < MOST; i++) {
        u64 r = next();
        first[i] = (u8)r;
        second[i] = (u8)(r >> 9);
        third[i] = (u8)(r >> 18);
        chosen[i] = (u8)(r >> 27);
    }
}

static NOINLINE void show(const char *name)
{
    print_hash(name, left, svcntb());
}

/* with a, b and c of lanes of this type, and `some` of them active */
#define WITH(S, T, name, statement)                                          \
    {                                                                        \
        svbool_t all = svptrue_b##T();                                       \
        svbool_t some = svcmplt(all, svld1_s##T(all, (i##T *)chosen), 0);    \
        sv##S##T##_t a = svld1(all, (S##T##_t *)first);                      \
        sv##S##T##_t b = svld1(all, (S##T##_t *)second);                     \
        sv##S##T##_t c = svld1(all, (S##T##_t *)third);                      \
        (void)some, (void)a, (void)b, (void)c;                               \
        statement;                                                           \
        show(name);                                                          \
    }

#define PUT(S, T, name, value) WITH(S, T, name, svst1(all, (S##T##_t *)left, value))


#define OF_ALL(name, value)          \
    PUT(uint, 8, name " b", value)   \
    PUT(uint, 16, name " h", value)  \
    PUT(uint, 32, name " s", value)  \
    PUT(uint, 64, name " d", value)  \
    PUT(int, 8, name " sb", value)   \
    PUT(int, 16, name " sh", value)  \
    PUT(int, 32, name " ss", value)  \
    PUT(int, 64, name " sd", value)

#define OF_UNSIGNED(name, value)     \
    PUT(uint, 8, name " b", value)   \
    PUT(uint, 16, name " h", value)  \
    PUT(uint, 32, name " s", value)  \
    PUT(uint, 64, name " d", value)

#define OF_SIGNED(name, value)       \
    PUT(int, 8, name " b", value)    \
    PUT(int, 16, name " h", value)   \
    PUT(int, 32, name " s", value)   \
    PUT(int, 64, name " d", value)

/* a predicate, as a vector of ones and zeros */
#define FLAGS(S, T, name, flags) \
    WITH(S, T, name, svst1(svptrue_b8(), left, svdup_u8_z(flags, 1)))

#define FLAGS_OF_ALL(name, flags)      \
    FLAGS(uint, 8, name " b", flags)   \
    FLAGS(uint, 16, name " h", flags)  \
    FLAGS(uint, 32, name " s", flags)  \
    FLAGS(uint, 64, name " d", flags)  \
    FLAGS(int, 8, name " sb", flags)   \
    FLAGS(int, 16, name " sh", flags)  \
    FLAGS(int, 32, name " ss", flags)  \
    FLAGS(int, 64, name " sd", flags)

#define NUMBER(S, T, name, number) WITH(S, T, name, print(name, (i64)(number)))

#define NUMBER_OF_WIDE(name, number)      \
    NUMBER(uint, 32, name " s", number)   \
    NUMBER(uint, 64, name " d", number)   \
    NUMBER(int, 32, name " ss", number)   \
    NUMBER(int, 64, name " sd", number)

static NOINLINE void sums(void)
{
    OF_ALL("add", svadd_m(some, a, b))
    OF_ALL("sub", svsub_z(some, a, b))
    OF_ALL("subr", svsubr_m(some, a, b))
    OF_ALL("qadd", svqadd(a, b))
    OF_ALL("qsub", svqsub(a, b))
    OF_ALL("mul", svmul_m(some, a, b))
    OF_ALL("mulh", svmulh_m(some, a, b))
    OF_ALL("mla", svmla_m(some, c, a, b))
    OF_ALL("mls", svmls_m(some, c, a, b))
    OF_ALL("mad", svmad_m(some, a, b, c))
    OF_ALL("abd", svabd_m(some, a, b))
    OF_ALL("add 7", svadd_m(all, a, 7))
    OF_ALL("mul 100", svmul_m(some, a, 100))
    OF_ALL("max", svmax_m(some, a, b))
    OF_ALL("min", svmin_m(some, a, b))
}

static NOINLINE void quotients(void)
{
    PUT(uint, 32, "div s", svdiv_m(some, a, svorr_m(all, svlsr_m(all, b, 20), 1)))
    PUT(uint, 64, "div d", svdiv_m(some, a, svlsr_m(all, b, 40)))
    PUT(int, 32, "div ss", svdiv_m(some, a, svasr_m(all, b, 20)))
    PUT(int, 64, "div sd", svdiv_z(some, a, svasr_m(all, b, 48)))
    PUT(int, 32, "divr ss", svdivr_m(some, svasr_m(all, b, 20), a))
    PUT(uint, 32, "dot s", svdot(a, svld1(svptrue_b8(), second), svld1(svptrue_b8(), third)))
    PUT(int, 64, "dot sd", svdot(a, svld1(svptrue_b16(), (i16 *)second), svld1(svptrue_b16(), (i16 *)third)))
}

static NOINLINE void bits(void)
{
    OF_ALL("and", svand_m(some, a, b))
    OF_ALL("bic", svbic_m(some, a, b))
    OF_ALL("orr", svorr_z(some, a, b))
    OF_ALL("eor", sveor_m(some, a, b))
    OF_ALL("not", svnot_m(c, some, a))
    OF_ALL("cnot", svcnot_m(c, some, a))
    OF_UNSIGNED("cnt", svcnt_m(c, some, a))
    OF_UNSIGNED("clz", svclz_m(c, some, a))
    OF_ALL("rbit", svrbit_m(c, some, a))
    OF_SIGNED("neg", svneg_m(c, some, a))
    OF_SIGNED("abs", svabs_m(c, some, a))
    OF_UNSIGNED("lsl", svlsl_m(some, a, svand_m(all, b, 15)))
    OF_UNSIGNED("lsr", svlsr_m(some, a, svand_m(all, b, 31)))
    OF_UNSIGNED("lsl 3", svlsl_m(some, a, 3))
    OF_SIGNED("asrd 4", svasrd_m(some, a, 4))
    PUT(int, 64, "sxtw", svextw_m(c, some, a))
    PUT(uint, 32, "uxth", svexth_m(c, some, a))
    PUT(uint, 64, "revb", svrevb_m(c, some, a))
    PUT(uint, 64, "revw", svrevw_m(c, some, a))
}

static NOINLINE void places(void)
{
    OF_ALL("sel", svsel(some, a, b))
    OF_ALL("rev", svrev(a))
    OF_ALL("ext", svext(a, b, 1))
    OF_ALL("zip1", svzip1(a, b))
    OF_ALL("zip2", svzip2(a, b))
    OF_ALL("uzp1", svuzp1(a, b))
    OF_ALL("uzp2", svuzp2(a, b))
    OF_ALL("trn1", svtrn1(a, b))
    OF_ALL("trn2", svtrn2(a, b))
    OF_ALL("insr", svinsr(a, chosen[7]))
    OF_ALL("dup", svdup_lane(a, 3))
    OF_ALL("splice", svsplice(some, a, b))
    OF_ALL("clasta", svclasta(some, a, b))
    OF_ALL("clastb", svclastb(some, a, b))
    OF_UNSIGNED("tbl", svtbl(a, svand_m(all, b, 31)))
    PUT(uint, 32, "compact s", svcompact(some, a))
    PUT(int, 64, "compact d", svcompact(some, a))
    PUT(uint, 32, "unpklo", svunpklo(svld1(svptrue_b16(), (u16 *)first)))
    PUT(int, 64, "unpkhi", svunpkhi(svld1(svptrue_b32(), (i32 *)first)))
    PUT(int, 16, "index h", svindex_s16(-5, 3))
    PUT(uint, 64, "index d", svindex_u64(11, 7))
}

static NOINLINE void comparisons(void)
{
    FLAGS_OF_ALL("cmpeq", svcmpeq(some, svand_m(all, a, 3), svand_m(all, b, 3)))
    FLAGS_OF_ALL("cmpgt", svcmpgt(some, a, b))
    FLAGS_OF_ALL("cmpge 5", svcmpge(all, a, 5))
    FLAGS_OF_ALL("brka", svbrka_z(all, some))
    FLAGS_OF_ALL("brkb", svbrkb_m(some, all, svcmpgt(all, a, b)))
    FLAGS_OF_ALL("brkpa", svbrkpa_z(all, some, svcmpgt(all, a, b)))
    FLAGS_OF_ALL("brkn", svbrkn_z(all, svcmpgt(all, a, b), some))
    FLAGS_OF_ALL("nand", svnand_z(all, some, svcmpgt(all, a, b)))
    FLAGS_OF_ALL("orn", svorn_z(all, some, svcmpgt(all, a, b)))
    FLAGS(uint, 8, "pfirst", svpfirst(some, svpfalse()))
    FLAGS(uint, 16, "pnext", svpnext_b16(some, svpnext_b16(some, svpfalse())))
    FLAGS(uint, 16, "zip of flags", svzip1_b16(some, svnot_z(all, some)))
    FLAGS(uint, 32, "uzp of flags", svuzp2_b32(some, svptrue_b8()))
    FLAGS(uint, 64, "rev of flags", svrev_b64(some))
    FLAGS(uint, 8, "unpkhi of flags", svunpkhi(some))
    FLAGS(uint, 8, "whilelt", svwhilelt_b8(-7, 3))
    FLAGS(uint, 16, "whilele", svwhilele_b16_u64(5, 13))
    FLAGS(uint, 32, "pattern", svptrue_pat_b32(SV_POW2))
    FLAGS(uint, 32, "multiples of 3", svptrue_pat_b32(SV_MUL3))
}

static NOINLINE void folds(void)
{
    NUMBER_OF_WIDE("addv", svaddv(some, a))
    NUMBER_OF_WIDE("maxv", svmaxv(some, a))
    NUMBER_OF_WIDE("minv", svminv(some, a))
    NUMBER_OF_WIDE("orv", svorv(some, a))
    NUMBER_OF_WIDE("andv", svandv(some, a))
    NUMBER_OF_WIDE("eorv", sveorv(some, a))
    NUMBER_OF_WIDE("lasta", svlasta(some, a))
    NUMBER_OF_WIDE("lastb", svlastb(some, a))
    NUMBER(uint, 8, "addv b", svaddv(some, a))
    NUMBER(int, 16, "addv h", svaddv(some, a))
    NUMBER(uint, 8, "cntp", svcntp_b8(all, some))
    NUMBER(uint, 64, "cntp d", svcntp_b64(all, some))
    NUMBER(uint, 8, "cntb", svcntb() + svcnth() + svcntw() + svcntd())
    NUMBER(uint, 8, "qincb", svqincb((int)2147483600, 3))
    NUMBER(uint, 8, "qdech", svqdech((unsigned long)9, 2))
    NUMBER(uint, 8, "first", svptest_first(all, some) * 4 + svptest_any(all, some) * 2 + svptest_last(all, some))
}

int main(void)
{
    print("bytes", (i64)svcntb());
    fill();
    sums();
    quotients();
    bits();
    places();
    comparisons();
    folds();
    flush();
    return (int)(svcntb() / 4 + 3);
}
