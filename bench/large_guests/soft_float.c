/* soft_float.c: what gcc calls where C computes with doubles, since the machine has no coprocessor.
 *
 * IEEE 754, to the nearest, ties to even. A NaN that comes out is always the same one; there are no
 * flags and no traps.
 */
#include <stdint.h>

#define SIGN ((uint64_t)1 << 63)
#define FRACTION_BITS 52
#define HIDDEN ((uint64_t)1 << FRACTION_BITS)
#define INFINITE ((uint64_t)0x7ff << FRACTION_BITS)
#define NOT_A_NUMBER (INFINITE | HIDDEN >> 1)
#define BIAS 1023
/* While it is computed with, a fraction has its highest one at bit 62, and so ten bits below the last. */
#define GUARD 10
#define HIGHEST ((uint64_t)1 << 62)

typedef union {
    double number;
    uint64_t bits;
} both;

static uint64_t bits_of(double number)
{
    both it = {.number = number};

    return it.bits;
}

static double number_of(uint64_t bits)
{
    both it = {.bits = bits};

    return it.number;
}

static uint64_t size_of(uint64_t bits)
{
    return bits & ~SIGN;
}

static int is_nan(uint64_t bits)
{
    return size_of(bits) > INFINITE;
}

/* Down by so many bits; what falls out leaves a one in the last bit. */
static uint64_t shifted_down(uint64_t value, int count)
{
    if (count == 0)
        return value;
    if (count > 63)
        return value != 0;
    return value >> count | (value << (64 - count) != 0);
}

/* The number value * 2^(exponent - BIAS - 62), rounded. The highest one is at bit 62, or the exponent is 1
 * at most.
 */
static uint64_t rounded(uint64_t sign, int exponent, uint64_t value)
{
    uint64_t rest;

    if (exponent >= 0x7ff)
        return sign | INFINITE;
    if (exponent < 1) {
        value = shifted_down(value, 1 - exponent);
        exponent = 1;
    }
    rest = value & ((1 << GUARD) - 1);
    value >>= GUARD;
    if (rest > 1 << (GUARD - 1) || (rest == 1 << (GUARD - 1) && (value & 1)))
        value++;
    return sign | (((uint64_t)(exponent - 1) << FRACTION_BITS) + value);
}

/* Up to the highest one at bit 62, as far as the exponent allows it. */
static uint64_t normal(uint64_t value, int *exponent)
{
    while (!(value & HIGHEST) && *exponent > 1) {
        value <<= 1;
        --*exponent;
    }
    return value;
}

static int exponent_of(uint64_t bits)
{
    int exponent = bits >> FRACTION_BITS & 0x7ff;

    return exponent == 0 ? 1 : exponent;
}

static uint64_t fraction_of(uint64_t bits)
{
    uint64_t fraction = bits & (HIDDEN - 1);

    return bits >> FRACTION_BITS & 0x7ff ? fraction | HIDDEN : fraction;
}

/* The same of a number that isn't 0, with the highest one at bit 52 also if it is a very small one. */
static uint64_t whole_fraction(uint64_t bits, int *exponent)
{
    uint64_t fraction = fraction_of(bits);

    *exponent = exponent_of(bits);
    while (!(fraction & HIDDEN)) {
        fraction <<= 1;
        --*exponent;
    }
    return fraction;
}

static uint64_t sum_of(uint64_t left, uint64_t right)
{
    uint64_t sign, one, other, value;
    int exponent;

    if (is_nan(left) || is_nan(right))
        return NOT_A_NUMBER;
    if (size_of(left) < size_of(right)) {
        value = left;
        left = right;
        right = value;
    }
    if (size_of(left) == INFINITE)
        return size_of(right) == INFINITE && left != right ? NOT_A_NUMBER : left;
    sign = left & SIGN;
    exponent = exponent_of(left);
    one = fraction_of(left) << GUARD;
    other = shifted_down(fraction_of(right) << GUARD, exponent - exponent_of(right));
    if (sign != (right & SIGN)) {
        value = one - other;
        return value == 0 ? 0 : rounded(sign, exponent, normal(value, &exponent));
    }
    value = one + other;
    if (value & SIGN) {
        value = shifted_down(value, 1);
        exponent++;
    }
    return rounded(sign, exponent, value);
}

double __adddf3(double left, double right)
{
    return number_of(sum_of(bits_of(left), bits_of(right)));
}

double __subdf3(double left, double right)
{
    uint64_t bits = bits_of(right);

    return number_of(sum_of(bits_of(left), is_nan(bits) ? bits : bits ^ SIGN));
}

double __negdf2(double number)
{
    return number_of(bits_of(number) ^ SIGN);
}

/* The upper half of a product, with a one in its last bit if the lower half has any. */
static uint64_t upper_product(uint64_t left, uint64_t right)
{
    uint64_t low = (uint64_t)(uint32_t)left * (uint32_t)right;
    uint64_t one = (left >> 32) * (uint32_t)right + (low >> 32);
    uint64_t other = (uint64_t)(uint32_t)left * (right >> 32) + (uint32_t)one;
    uint64_t high = (left >> 32) * (right >> 32) + (one >> 32) + (other >> 32);

    return high | ((other << 32 | (uint32_t)low) != 0);
}

double __muldf3(double one, double other)
{
    uint64_t left = bits_of(one), right = bits_of(other), sign = (left ^ right) & SIGN, value;
    int exponent, second;

    if (is_nan(left) || is_nan(right))
        return number_of(NOT_A_NUMBER);
    if (size_of(left) == INFINITE || size_of(right) == INFINITE)
        return number_of(size_of(left) == 0 || size_of(right) == 0 ? NOT_A_NUMBER : sign | INFINITE);
    if (size_of(left) == 0 || size_of(right) == 0)
        return number_of(sign);
    value = whole_fraction(left, &exponent) << GUARD;
    value = upper_product(value, whole_fraction(right, &second) << (GUARD + 1));
    exponent += second - BIAS + 1;
    if (!(value & HIGHEST)) {
        value <<= 1;
        exponent--;
    }
    return number_of(rounded(sign, exponent, value));
}

/* A fraction by another: 55 bits of the quotient, of which the first is a one, and whether there is a rest. */
static uint64_t quotient_of(uint64_t left, uint64_t right)
{
    uint64_t quotient = 0;
    int bit;

    for (bit = 0; bit < 55; bit++) {
        quotient <<= 1;
        if (left >= right) {
            left -= right;
            quotient |= 1;
        }
        left <<= 1;
    }
    return quotient << 8 | (left != 0);
}

double __divdf3(double one, double other)
{
    uint64_t left = bits_of(one), right = bits_of(other), sign = (left ^ right) & SIGN, value;
    int exponent, second;

    if (is_nan(left) || is_nan(right))
        return number_of(NOT_A_NUMBER);
    if (size_of(left) == INFINITE)
        return number_of(size_of(right) == INFINITE ? NOT_A_NUMBER : sign | INFINITE);
    if (size_of(right) == 0)
        return number_of(size_of(left) == 0 ? NOT_A_NUMBER : sign | INFINITE);
    if (size_of(right) == INFINITE || size_of(left) == 0)
        return number_of(sign);
    left = whole_fraction(left, &exponent);
    right = whole_fraction(right, &second);
    exponent += BIAS - second;
    if (left < right) {
        left <<= 1;
        exponent--;
    }
    value = quotient_of(left, right);
    return number_of(rounded(sign, exponent, value));
}

/* Below 0, 0 or above it as the left number is below the right one, equal, or above; else `unordered`. */
static int compared(double one, double other, int unordered)
{
    uint64_t left = bits_of(one), right = bits_of(other);

    if (is_nan(left) || is_nan(right))
        return unordered;
    if (left == right || (size_of(left) | size_of(right)) == 0)
        return 0;
    if ((left ^ right) & SIGN)
        return left & SIGN ? -1 : 1;
    return (left < right) == !(left & SIGN) ? -1 : 1;
}

int __eqdf2(double left, double right)
{
    return compared(left, right, 1);
}

int __nedf2(double left, double right)
{
    return compared(left, right, 1);
}

int __ltdf2(double left, double right)
{
    return compared(left, right, 1);
}

int __ledf2(double left, double right)
{
    return compared(left, right, 1);
}

int __gtdf2(double left, double right)
{
    return compared(left, right, -1);
}

int __gedf2(double left, double right)
{
    return compared(left, right, -1);
}

int __unorddf2(double left, double right)
{
    return is_nan(bits_of(left)) || is_nan(bits_of(right));
}

/* A whole number as a double. */
static double of_whole(uint64_t sign, uint64_t value)
{
    int exponent = BIAS + 62;

    if (value == 0)
        return 0;
    if (value & SIGN) {
        value = shifted_down(value, 1);
        exponent++;
    }
    value = normal(value, &exponent);
    return number_of(rounded(sign, exponent, value));
}

double __floatundidf(uint64_t value)
{
    return of_whole(0, value);
}

double __floatdidf(int64_t value)
{
    return value < 0 ? of_whole(SIGN, -(uint64_t)value) : of_whole(0, value);
}

double __floatunsidf(uint32_t value)
{
    return of_whole(0, value);
}

double __floatsidf(int32_t value)
{
    return __floatdidf(value);
}

/* The whole part of a double without its sign; one that is past 64 bits gives any. */
static uint64_t whole_of(uint64_t bits)
{
    int places = exponent_of(bits) - BIAS - FRACTION_BITS;
    uint64_t fraction = fraction_of(bits);

    if (places >= 0)
        return places > 63 ? 0 : fraction << places;
    return places < -63 ? 0 : fraction >> -places;
}

uint64_t __fixunsdfdi(double number)
{
    uint64_t value = whole_of(bits_of(number));

    return bits_of(number) & SIGN ? -value : value;
}

int64_t __fixdfdi(double number)
{
    return __fixunsdfdi(number);
}

uint32_t __fixunsdfsi(double number)
{
    return __fixunsdfdi(number);
}

int32_t __fixdfsi(double number)
{
    return __fixunsdfdi(number);
}

/* Floats are computed with as doubles. */
typedef union {
    float number;
    uint32_t bits;
} both_short;

double __extendsfdf2(float number)
{
    both_short it = {.number = number};
    uint64_t sign = (uint64_t)(it.bits >> 31) << 63, fraction = it.bits & 0x7fffff;
    int exponent = it.bits >> 23 & 0xff;

    if (exponent == 0xff)
        return number_of(fraction ? NOT_A_NUMBER : sign | INFINITE);
    if (exponent == 0 && fraction == 0)
        return number_of(sign);
    fraction = exponent == 0 ? fraction : fraction | 1 << 23;
    exponent = (exponent == 0 ? 1 : exponent) + BIAS - 127;
    fraction = normal(fraction << 39, &exponent);
    return number_of(rounded(sign, exponent, fraction));
}

float __truncdfsf2(double number)
{
    uint64_t bits = bits_of(number), fraction = fraction_of(bits) << GUARD, rest;
    int exponent = exponent_of(bits) - BIAS + 127;
    both_short it = {.bits = (uint32_t)(bits >> 63) << 31};

    if (size_of(bits) >= INFINITE || exponent >= 0xff) {
        it.bits |= is_nan(bits) ? 0x7fc00000 : 0x7f800000;
        return it.number;
    }
    if (exponent < 1) {
        fraction = shifted_down(fraction, 1 - exponent);
        exponent = 1;
    }
    rest = fraction & (((uint64_t)1 << 39) - 1);
    fraction >>= 39;
    if (rest > (uint64_t)1 << 38 || (rest == (uint64_t)1 << 38 && (fraction & 1)))
        fraction++;
    it.bits |= ((uint32_t)(exponent - 1) << 23) + (uint32_t)fraction;
    return it.number;
}

/* A product of two floats has no more bits than a double. */
float __mulsf3(float left, float right)
{
    return (double)left * right;
}

float __floatsisf(int32_t value)
{
    return (double)value;
}

/* Of more bits than a double has, what falls out leaves a one in the last, so that it is rounded once. */
float __floatdisf(int64_t value)
{
    uint64_t size = value < 0 ? -(uint64_t)value : (uint64_t)value;
    double number = size >> 53 ? __floatundidf(shifted_down(size, 11)) * 2048 : (double)size;

    return value < 0 ? -number : number;
}
