/* What the floating-point state does to the library: with the state that the header assumes every root is the processor's; with
 * flush-to-zero and denormals-are-zero, which -ffast-math sets at start, roots of subnormals are wrong, and voldrekka_float_state() says so. */
#include "voldrekka.h"

#include <stdio.h>
#include <emmintrin.h>

enum {
    DENORMALS_ARE_ZERO = 0x0040,
    ROUND_UP = 0x4000,
    FLUSH_TO_ZERO = 0x8000,
    SUBNORMALS = 1000
};

/* 2^-1074 times an odd number: a subnormal. */
static double subnormal(uint64_t i)
{
    uint64_t bits = i * 7919 + 1;
    double x;
    memcpy(&x, &bits, sizeof x);
    return x;
}

static double processor_root(double x)
{
    return _mm_cvtsd_f64(_mm_sqrt_sd(_mm_setzero_pd(), _mm_set_sd(x)));
}

/* How many roots of subnormals differ from the processor's, which is taken in the state assumed. */
static int wrong_roots(unsigned state)
{
    const unsigned assumed = _mm_getcsr();
    int wrong = 0;
    for (uint64_t i = 0; i < SUBNORMALS; i++) {
        const double right = processor_root(subnormal(i));
        double root;
        _mm_setcsr(assumed | state);
        root = voldrekka_sqrt(subnormal(i));
        _mm_setcsr(assumed);
        wrong += voldrekka_bits(root) != voldrekka_bits(right);
    }
    return wrong;
}

static bool told(unsigned state)
{
    const unsigned assumed = _mm_getcsr();
    bool good;
    _mm_setcsr(assumed | state);
    good = voldrekka_float_state();
    _mm_setcsr(assumed);
    return good;
}

int main(void)
{
    const int assumed = wrong_roots(0);
    const int flushed = wrong_roots(FLUSH_TO_ZERO | DENORMALS_ARE_ZERO);
    printf("roots of %d subnormals: %d wrong in the state assumed, %d wrong with subnormals flushed to zero\n", SUBNORMALS, assumed, flushed);
    if (assumed != 0 || flushed == 0)
        return 1;
    if (!told(0) || told(FLUSH_TO_ZERO) || told(DENORMALS_ARE_ZERO) || told(ROUND_UP)) {
        puts("voldrekka_float_state() is wrong of a state");
        return 1;
    }
    puts("voldrekka_float_state() tells each of them");
    return 0;
}
