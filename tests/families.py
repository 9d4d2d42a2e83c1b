#!/usr/bin/env python3
"""Tries the families of words against GNU's disassembler.

Makes words that are spread over all groups of encodings, the same ones each time, and shows them by objdump. The
mnemonic and the kinds of its operands tell which family each word has, and that is compared with what a program says:
words stand on its standard input, one a line, as 0x1e222820, and on its standard output each before its family's name.

Where objdump knows no instruction, the program may say any family of the same broad group, or that there is none."""

import argparse
import collections
import os
import random
import re
import shutil
import subprocess
import sys
import tempfile

OBJDUMP = "aarch64-linux-gnu-objdump"

FLOATING_POINT = "floating point"
SVE_FLOATING_POINT = "SVE floating point"
ADVANCED_SIMD = "Advanced SIMD"
SVE2 = "SVE2"
SVE_LEFT_OUT = "SVE left out"
SME = "SME"
CRYPTOGRAPHIC = "cryptographic"
CRC32 = "CRC32"
POINTER_AUTHENTICATION = "pointer authentication"
MEMORY_TAGGING = "memory tagging"
SYSTEM = "system"
PAIR_ATOMICS = "atomics of pairs"
UNPRIVILEGED = "unprivileged load or store"
RCPC = "RCpc load or store"
OTHER = "another extension"
UNDEFINED = "permanently undefined"
UNALLOCATED = "unallocated"

# the families of C4.1's first table, by bits 28:25
BROAD = {
    0b0000: {SME, UNDEFINED},
    0b0010: {SVE_FLOATING_POINT, SVE2, SVE_LEFT_OUT, SME},
    0b1000: {MEMORY_TAGGING, OTHER, POINTER_AUTHENTICATION},
    0b1010: {SYSTEM, OTHER, SME, POINTER_AUTHENTICATION},
    0b0100: {PAIR_ATOMICS, UNPRIVILEGED, RCPC, OTHER, MEMORY_TAGGING, POINTER_AUTHENTICATION, ADVANCED_SIMD},
    0b0101: {CRC32, OTHER, MEMORY_TAGGING, POINTER_AUTHENTICATION},
    0b0111: {FLOATING_POINT, ADVANCED_SIMD, CRYPTOGRAPHIC},
}
# the other values of bits 28:25 that have the same group
SAME_BROAD = {
    0b1001: 0b1000,
    0b1011: 0b1010,
    0b0110: 0b0100,
    0b1100: 0b0100,
    0b1110: 0b0100,
    0b1101: 0b0101,
    0b1111: 0b0111,
}

# an instruction of svemu's table: no one asks for the family of its words
TABLE = "the table"


def names(text):
    return set(text.split())


CRYPTOGRAPHIC_NAMES = re.compile(r"aes|sha(1|256|512)|sm[34](e|p|s|t)|eor3$|bcax$|rax1$|xar$")
SVE_CRYPTOGRAPHIC = re.compile(r"aes|sm4|rax1")
AUTHENTICATION_NAMES = re.compile(r"(pac|aut|xpac)|(bra|blra|reta|ereta)[ab]z?$|ldra[ab]$")
TAGGING_NAMES = names("addg subg subp subps irg gmi stg stzg st2g stz2g ldg stgp ldgm stgm stzgm")
SYSTEM_NAMES = names("""
    hvc smc dcps1 dcps2 dcps3 sb ssbb pssbb dfb sys sysl at dc ic tlbi cfp dvp cpp cosp brb mrs msr eret drps wfet
    wfit sysp msrr mrrs
""")
PAIR_NAMES = re.compile(r"(ld|st)a?l?xp$|stlxp$|ldaxp$|casp(a|l|al)?$|(swpp|ldclrp|ldsetp)(a|l|al)?$")
UNPRIVILEGED_NAMES = re.compile(r"(ldtr|sttr)(s?[bh]|sw)?$")
RCPC_NAMES = re.compile(r"ldapr[bh]?$|ldapur(s?[bh]|sw)?$|stlur[bh]?$|ldiapp$|stilp$|ldap1$|stl1$")
OTHER_NAMES = re.compile(
    r"cpy|setg?[pme]|ld64b$|st64bv?0?$|rmif$|setf(8|16)$|cfinv$|axflag$|xaflag$|tstart$|tcommit$|tcancel$|ttest$|"
    r"bc\.|ctz$|cnt$|abs$|smax$|smin$|umax$|umin$|ldlar[bh]?$|stllr[bh]?$|wfet$|wfit$"
)
GENERAL_TABLE = names("""
    adr adrp add adds sub subs and orr eor ands movn movz movk sbfm bfm ubfm extr bic orn eon bics adc adcs sbc
    sbcs ccmn ccmp csel csinc csinv csneg madd msub smaddl smsubl umaddl umsubl smulh umulh udiv sdiv lslv lsrv
    asrv rorv rbit rev16 clz cls rev rev32 b bl cbz cbnz tbz tbnz br blr ret svc brk hlt clrex dsb dmb isb hint
    nop csdb esb prfm prfum rprfm
""")
LOAD_NAMES = re.compile(
    r"(ldr|str|ldur|stur)(s?[bh]|sw)?$|(ldp|stp|ldnp|stnp|ldpsw)$|(ld|st)a?l?xr[bh]?$|stlr[bh]?$|ldar[bh]?$"
)
ATOMIC_NAMES = re.compile(r"((ld|st)(add|clr|eor|set|smax|smin|umax|umin)|swp|cas)(a|l|al)?[bh]?$")

# scalar Advanced SIMD by name alone, and conversions between two of its scalars
SCALAR_SIMD = names("""
    fabd facge facgt fcmeq fcmge fcmgt fcmle fcmlt fmulx frecpe frecps frecpx frsqrte frsqrts fcvtxn fmla fmls
    faddp fmaxp fminp fmaxnmp fminnmp fmlal
""")
CONVERSIONS = re.compile(r"(scvtf|ucvtf|fcvt[zpnma][su])$")

SVE_TABLE = names("""
    add sub subr smax umax smin umin sabd uabd mul smulh umulh sdiv udiv sdivr udivr orr eor and bic asr lsr lsl
    asrr lsrr lslr asrd sxtb uxtb sxth uxth sxtw uxtw abs neg cls clz cnt cnot not revb revh revw rbit mla mls
    mad msb sqadd uqadd sqsub uqsub index sdot udot dup dupm cpy movprfx sel saddv uaddv smaxv umaxv sminv
    uminv orv eorv andv cntb cnth cntw cntd addvl addpl rdvl insr rev sunpklo sunpkhi uunpklo uunpkhi tbl zip1
    zip2 uzp1 uzp2 trn1 trn2 punpklo punpkhi compact splice ext lasta lastb clasta clastb cmphs cmphi cmpge
    cmpgt cmpeq cmpne cmplt cmple cmplo cmpls ands bics eors orrs orn orns nor nors nand nands brka brkas brkb
    brkbs brkpa brkpas brkpb brkpbs brkn brkns ptest pfirst pnext ptrue ptrues pfalse rdffr rdffrs setffr wrffr
    cntp incp decp whilelt whilele whilelo whilels ctermeq ctermne ldr str
""")
SVE_TABLE_NAMES = re.compile(
    r"(inc|dec|sqinc|uqinc|sqdec|uqdec)[bhwd]$|ld(1|ff1|nf1)s?[bhwd]$|ldnt1[bhwd]$|ld1rq[bhwd]$|ld[234][bhwd]$|"
    r"ld1rs?[bhwd]$|st1[bhwd]$|stnt1[bhwd]$|st[234][bhwd]$"
)
SVE_LEFT_OUT_NAMES = re.compile(
    r"adr$|prf[bhwd]$|(sqinc|uqinc|sqdec|uqdec)p$|ld1ro[bhwd]$|usdot$|sudot$|smmla$|ummla$|usmmla$"
)
SME_NAMES = names("smstart smstop rdsvl addsvl addspl psel revd sclamp uclamp zero addha addva")


def sve_family(name, operands):
    """The family of an instruction with Z registers or predicates."""
    registers = re.findall(r"\bz\d+", operands)
    predicates = re.findall(r"\bp\d+", operands)
    if name in SME_NAMES or re.search(r"\bza", operands):
        return SME
    if re.match(r"f(?!irst)|bf|scvtf|ucvtf", name):
        return SVE_FLOATING_POINT
    if SVE_LEFT_OUT_NAMES.match(name):
        return SVE_LEFT_OUT
    if re.match(r"(zip|uzp|trn)[12]$", name) and ".q" in operands:
        return SVE_LEFT_OUT
    if SVE_CRYPTOGRAPHIC.match(name):
        return SVE2
    if re.match(r"(ldnt1|stnt1)", name):
        return SVE2 if re.search(r"\[z\d+", operands) else TABLE
    if name in names("mul smulh umulh") and not predicates and "#" not in operands:
        return SVE2
    if name in names("sqadd uqadd sqsub uqsub") and predicates:
        return SVE2
    if name in names("mla mls") and not predicates:
        return SVE2
    if name in names("sqshl uqshl srshr urshr sqshlu"):
        return SVE2
    if name == "ext" and "{" in operands or name == "splice" and "{" in operands:
        return SVE2
    if name == "tbl" and len(registers) == 4:
        return SVE2
    if name in SVE_TABLE or SVE_TABLE_NAMES.match(name):
        return TABLE
    return SVE2


def family(name, operands):
    """The family of an instruction by its name and the kinds of its operands."""
    if name == "udf":
        return UNDEFINED
    if name in SME_NAMES or "za" in operands:
        return SME
    if re.search(r"\b[zp]\d+\b", operands) or name in names("setffr wrffr rdffr rdvl addvl addpl ctermeq ctermne"):
        return sve_family(name, operands)
    if SVE_TABLE_NAMES.match(name) and not re.search(r"\bv\d", operands):
        return TABLE
    if re.match(r"cnt[bhwd]$", name):
        return TABLE
    if CRYPTOGRAPHIC_NAMES.match(name):
        return CRYPTOGRAPHIC
    scalars = re.findall(r"\b[bhsdq]\d+\b", operands)
    general = re.findall(r"\b[xw]\d+\b|\b[xw]zr\b|\bw?sp\b", operands)
    if RCPC_NAMES.match(name):
        return RCPC
    if name in names("movi mvni"):
        return TABLE
    if re.search(r"\bv\d+", operands):
        if name == "fmov" and general:
            return FLOATING_POINT
        return ADVANCED_SIMD
    if scalars:
        if LOAD_NAMES.match(name):
            return TABLE
        if name == "fmov" and general:
            return TABLE
        if name in SCALAR_SIMD or not re.match(r"f|bf|scvtf|ucvtf", name):
            return ADVANCED_SIMD
        if CONVERSIONS.match(name) and not general:
            return ADVANCED_SIMD
        return FLOATING_POINT
    if AUTHENTICATION_NAMES.match(name):
        is_hint = name.endswith(("sp", "1716")) or name == "xpaclri" or name.endswith("z") and not general
        return TABLE if is_hint else POINTER_AUTHENTICATION
    if name in TAGGING_NAMES:
        return MEMORY_TAGGING
    if PAIR_NAMES.match(name):
        return PAIR_ATOMICS
    if UNPRIVILEGED_NAMES.match(name):
        return UNPRIVILEGED
    if re.match(r"crc32", name):
        return CRC32
    if OTHER_NAMES.match(name) and not ATOMIC_NAMES.match(name):
        return OTHER
    if name in names("mrs msr") and re.search(r"tpidr_el0|nzcv|dczid_el0", operands):
        return TABLE
    if name in SYSTEM_NAMES:
        return SYSTEM
    if name in GENERAL_TABLE or name.startswith("b.") or LOAD_NAMES.match(name) or ATOMIC_NAMES.match(name):
        return TABLE
    if re.match(r"(hint|yield|wfe|wfi|sev|sevl|psb|tsb|dgh|bti|clearbhb|chkfeat)", name):
        return TABLE
    return None


def top_words(count):
    """Words spread over the groups: all upper 11 bits in turn, with the others at random."""
    chance = random.Random(63)
    words = [0, 1, 0xFFFF, 0x10000, 0xFFFFFFFF]
    tops = list(range(2048))
    while len(words) < count:
        chance.shuffle(tops)
        for top in tops:
            words.append(top << 21 | chance.getrandbits(21))
            # fields of registers that are all ones or zeros, and few ones
            words.append(top << 21 | chance.choice([0, 0x1F, 0x1F0000, 0x1F001F]) ^ chance.getrandbits(21) & 0xFFE0)
            words.append(top << 21 | chance.getrandbits(21) & chance.getrandbits(21))
    return words[:count]


def near_words(words, insns, count):
    """Words that part in a bit or in a field of five bits from one that objdump knows, each name in turn."""
    chance = random.Random(64)
    by_name = collections.defaultdict(list)
    for word, insn in zip(words, insns):
        if insn is not None and family(*insn) != TABLE:
            by_name[insn[0]].append(word)
    found = []
    while len(found) < count:
        for name in sorted(by_name):
            word = chance.choice(by_name[name])
            place = chance.choice([0, 5, 10, 16, 32])
            if place == 32:
                word ^= 1 << chance.randrange(32)
            else:
                word = word & ~(31 << place) | chance.getrandbits(5) << place
            found.append(word)
    return found[:count]


def is_mistaken(name, operands):
    """Whether objdump shows an instruction that the manual doesn't have: a move of a system register whose op0 is 0."""
    return name in ("mrs", "msr") and re.search(r"\bs0_", operands) is not None


def shown(words):
    """What objdump shows of words: pairs of a name and operands, or None where it knows no instruction."""
    with tempfile.TemporaryDirectory() as folder:
        path = os.path.join(folder, "words")
        with open(path, "wb") as out:
            for word in words:
                out.write(word.to_bytes(4, "little"))
        text = subprocess.run([OBJDUMP, "-D", "-z", "-b", "binary", "-m", "aarch64", "-M", "no-aliases", path],
                              stdout=subprocess.PIPE, check=True, text=True).stdout
    found = []
    for line in text.splitlines():
        parts = line.split("\t")
        if len(parts) < 3 or not re.match(r"\s*[0-9a-f]+:", parts[0]):
            continue
        name = parts[2].strip()
        operands = parts[3].split("//")[0].strip() if len(parts) > 3 else ""
        known = name != ".inst" and "undefined" not in operands and not is_mistaken(name, operands)
        found.append((name, operands) if known else None)
    return found


def said(program, words):
    """What the program says of words: the name of the family of each."""
    text = "".join(f"{word:#010x}\n" for word in words)
    ran = subprocess.run(program, input=text, stdout=subprocess.PIPE, text=True)
    if ran.returncode != 0:
        sys.exit(f"families: {program[0]} ended with status {ran.returncode}")
    lines = ran.stdout.splitlines()
    if len(lines) != len(words):
        sys.exit(f"families: {len(words)} words, and {len(lines)} lines of the program")
    found = []
    for word, line in zip(words, lines):
        start, _, name = line.partition(" ")
        if int(start, 16) != word:
            sys.exit(f"families: the program's line for {word:#010x} is {line!r}")
        found.append(name)
    return found


def main():
    reader = argparse.ArgumentParser(
        prog="families", description=__doc__, formatter_class=argparse.RawDescriptionHelpFormatter
    )
    reader.add_argument("--words", type=int, default=100000, metavar="N", help="how many words (100000)")
    reader.add_argument("--show", type=int, default=20, metavar="N", help="how many of those that part are shown (20)")
    reader.add_argument("program", nargs="+", help="the program and its arguments")
    options = reader.parse_args()
    for needed in (OBJDUMP, options.program[0]):
        if shutil.which(needed) is None:
            sys.exit(f"families: {needed}: no such program")
    words = top_words(options.words * 6 // 10)
    words += near_words(words, shown(words), options.words - len(words))
    by_objdump = shown(words)
    if len(by_objdump) != len(words):
        sys.exit(f"families: {len(words)} words, and {len(by_objdump)} lines of objdump")
    by_program = said(options.program, words)
    agreed = collections.Counter()
    table = unknown = parted = 0
    silent = collections.Counter()
    pairs = collections.defaultdict(set)
    for word, insn, name in zip(words, by_objdump, by_program):
        if insn is None:
            unknown += 1
            silent[name] += 1
            top = word >> 25 & 15
            if name != UNALLOCATED and name not in BROAD.get(SAME_BROAD.get(top, top), set()):
                parted += 1
                if parted <= options.show:
                    print(f"{word:#010x}, which objdump doesn't know: {name}")
            continue
        wanted = family(*insn)
        if wanted == TABLE:
            table += 1
            continue
        pairs[insn[0]].add(wanted)
        if wanted == name:
            agreed[name] += 1
            continue
        parted += 1
        if parted <= options.show:
            print(f"{word:#010x} {insn[0]} {insn[1]}: {name}, and by its name {wanted}")
    for name, number in sorted(agreed.items()):
        print(f"{number:7} {name}")
    print(f"{len(pairs):7} names of instructions")
    print(f"{table:7} of the table, which aren't compared")
    told = ", ".join(f"{number} {name}" for name, number in sorted(silent.items()))
    print(f"{unknown:7} that objdump doesn't know: {told}")
    print(f"{parted:7} part")
    sys.exit(1 if parted else 0)


if __name__ == "__main__":
    main()
