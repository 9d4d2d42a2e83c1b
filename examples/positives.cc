// Keeps the positive ones of 1,000 numbers, in their order, by the library Highway.
//
// What to look at: `CompressBlendedStore` is a `compact` of the active lanes and a store of as many. The loop is
// written once for all lengths, as in C with intrinsics: `FirstN` becomes `whilelo`, and the last turn has no tail of
// its own. The check is a number that depends on each number that is kept and on its place, so it shows a lane that is
// lost or out of order. It is the same at each length.
//
// It needs no C++ library: nothing in it throws, asks for a type at run time or allocates.

#include "guest.h"
#include "hwy/highway.h"

namespace hn = hwy::HWY_NAMESPACE;

static constexpr size_t COUNT = 1000;

static int numbers[COUNT];
static int kept[COUNT];

static size_t positives(const int *from, size_t count, int *to)
{
    const hn::ScalableTag<int> tag;
    size_t size = 0;

    for (size_t i = 0; i < count; i += hn::Lanes(tag)) {
        const auto in = hn::FirstN(tag, count - i);
        const auto values = hn::MaskedLoad(in, tag, from + i);

        size += hn::CompressBlendedStore(values, hn::And(in, hn::Gt(values, hn::Zero(tag))), tag, to + size);
    }
    return size;
}

// Clang gives the names of C++ to a `main` that has no library behind it.
extern "C" int main()
{
    unsigned seed = 1;
    unsigned check = 0;
    size_t size;

    for (size_t i = 0; i < COUNT; i++) {
        seed = seed * 1664525u + 1013904223u;
        numbers[i] = static_cast<int>(seed >> 20) - 2048;
    }
    size = positives(numbers, COUNT, kept);
    for (size_t i = 0; i < size; i++)
        check = check * 31 + static_cast<unsigned>(kept[i]);
    put_line("kept", static_cast<long>(size));
    put_line("first", kept[0]);
    put_line("last", kept[size - 1]);
    put_line("check", check);
    return 0;
}
