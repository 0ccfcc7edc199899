// One product modulo X^n + 1 and q by NTL's zz_pX, with its transforms for this very q.
#include <NTL/lzz_pX.h>
#include <cstdint>
#include <cstddef>
using namespace NTL;

extern "C" void ntl_product(uint32_t q, const uint32_t *a, const uint32_t *b, uint32_t *c, size_t n, size_t times) {
    zz_p::UserFFTInit(q);
    zz_pX x, y, z;
    x.SetMaxLength(n);
    y.SetMaxLength(n);
    for (size_t i = 0; i < n; i++) { SetCoeff(x, i, to_zz_p((long)a[i])); SetCoeff(y, i, to_zz_p((long)b[i])); }
    for (size_t t = 0; t < times; t++) {
        mul(z, x, y);
        zz_p last;
        for (size_t i = 0; i < n; i++) {
            zz_p low = coeff(z, i), high = coeff(z, i + n);
            c[i] = (uint32_t)rep(low - high);
        }
    }
}
