// Masked inversion, translated: by logarithms, and in the tower, with the box that is made of that. The tables of the tower are made by
// the formulas of document 000, 4.2.4.
#include "check.h"
#include "covered.h"
#include "expect.h"
#include "tables.h"
#include "translated.h"

static uint8_t powers[255], logarithms[256];
static uint8_t squares[256], sums[256], products[256], inverses[256], changes[16];

static uint8_t half_product(uint8_t a, uint8_t b)
{
    uint8_t product = 0;
    for (int bit = 3; bit >= 0; bit--) {
        product = (uint8_t)(product << 1 ^ (product >> 3) * 0x13);
        product ^= (uint8_t)(a * (b >> bit & 1));
    }
    return product;
}

static uint8_t half_inverse(uint8_t a)
{
    uint8_t b = 15;
    while (b > 0 && half_product(a, b) != 1)
        b--;
    return b;
}

static inline uint8_t linear(uint8_t b)
{
    uint16_t moved = (uint16_t)(b ^ b << 1 ^ b << 2 ^ b << 3 ^ b << 4);
    return (uint8_t)(moved ^ moved >> 8);
}

void prepare_tower(void)
{
    uint8_t power = 1;
    for (size_t n = 0; n < 255; n++) {
        powers[n] = power;
        logarithms[power] = (uint8_t)n;
        power = (uint8_t)(power ^ power << 1 ^ (power >> 7) * 0x1b);
    }
    for (size_t k = 0; k < 256; k++) {
        uint8_t a = (uint8_t)(k / 16), b = (uint8_t)(k % 16), bare = a ^ b;
        squares[k] = half_product(half_product(bare, bare), 0xe) ^ b;
        sums[k] = half_product(bare, b);
        products[k] = half_product(a, b);
        inverses[k] = half_inverse(bare) ^ b;
    }
    for (size_t label = 0; label < 16; label++)
        changes[label] = linear(published_masks[label]) ^ published_masks[(label + 1) % 16] ^ 0x63;
}

static inline uint8_t multiply(uint8_t a, uint8_t b)
{
    return a == 0 || b == 0 ? 0 : powers[(logarithms[a] + logarithms[b]) % 255];
}

static inline uint8_t inverse(uint8_t a)
{
    return a == 0 ? 0 : powers[(255 - logarithms[a]) % 255];
}

static inline uint8_t quotient(uint8_t a, uint8_t b)
{
    return multiply(a, inverse(b));
}

uint8_t translated_masked_inverse(uint8_t x, uint8_t r)
{
    if (r == 0)
        return inverse(x);
    if (x == r)
        return r;
    if (x == 0)
        return inverse(r) ^ r;
    return quotient(inverse(quotient(x, r) ^ 1) ^ (1 ^ multiply(x, r)), x);
}

// Each bit of a byte brings its image.
static inline uint8_t mapped(uint8_t x, const uint8_t images[8])
{
    uint8_t sum = 0;
    for (int bit = 0; bit < 8; bit++)
        sum ^= (uint8_t)((x >> bit & 1) * images[bit]);
    return sum;
}

static const uint8_t to_tower[8] = {0x01, 0x5e, 0x24, 0x2b, 0x4e, 0x97, 0x44, 0xd1};
static const uint8_t from_tower[8] = {0x01, 0xe0, 0x5d, 0xb0, 0x12, 0x59, 0x1d, 0x8e};

static inline uint8_t entry(const uint8_t table[256], uint8_t a, uint8_t b)
{
    return table[16 * a + b];
}

uint8_t translated_tower_inverse(uint8_t x, uint8_t r)
{
    uint8_t t = mapped(x, to_tower), m = mapped(r, to_tower);
    uint8_t xh = t >> 4, xl = t & 15, mh = m >> 4, ml = m & 15;
    uint8_t norm = entry(squares, xh, mh) ^ entry(sums, xh, xl) ^ entry(products, xh, ml) ^ entry(products, xl, mh) ^
                   entry(products, mh ^ ml, ml);
    uint8_t i = entry(inverses, norm, mh), j = i ^ (mh ^ ml);
    uint8_t h = entry(products, xh, j) ^ mh ^ entry(products, j, mh) ^ entry(products, xh, ml) ^ entry(products, mh, ml);
    uint8_t l = entry(products, xl, i) ^ ml ^ entry(products, i, ml) ^ entry(products, xl, mh) ^ h ^ mh ^ entry(products, mh, ml);
    return mapped((uint8_t)(h << 4 | l), from_tower);
}

uint8_t translated_tower_box(uint8_t label, uint8_t x)
{
    return linear(translated_tower_inverse(x, published_masks[label % 16])) ^ changes[label % 16];
}

// All pairs of bytes: the S-box of FIPS 197 is S of the box with its masks taken off, and the affine map of the inverse.
void check_tower(size_t engine)
{
    const struct engine *e = engines[engine];
    for (size_t n = 0; n < 65536; n++) {
        uint8_t a = (uint8_t)n, b = (uint8_t)(n >> 8);
        uint8_t expected = sbox[a ^ b] ^ 0x63;
        expect(linear(e->masked_inverse(a, b) ^ b) == expected, engine, MASKED_INVERSE, "pair", n);
        expect(linear(e->tower_inverse(a, b) ^ b) == expected, engine, TOWER_INVERSE, "pair", n);
        uint8_t box = sbox[a ^ published_masks[b % 16]] ^ published_masks[(b + 1) % 16];
        expect(e->tower_box(b, a) == box, engine, TOWER_BOX, "pair", n);
    }
}
