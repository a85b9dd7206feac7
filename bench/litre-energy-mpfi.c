/* litre-energy-mpfi list|sum COUNT KPA
 *
 * The energies that bench/litre-energy measures, in intervals of MPFI with 64
 * bits of precision: what a C program that certifies its answers takes. Each
 * sample stands for the resistances within half a microohm of it. The interval
 * of the temperatures is the closed root of the quadratic of IEC 60751; those of
 * the specific volume and the specific enthalpy are the sums of region 1 of
 * IAPWS-IF97. Their powers of y come from a table, filled by repeated
 * multiplication for each temperature: as y is positive, they are as narrow as y
 * allows. The powers of x, which the pressure alone fixes, come from one that is
 * filled once. Constants are read from their decimals, and rounded outwards.
 *
 * Prints the ends of the energy of a litre at each pair, in millijoules, or of
 * the sum of all. Needs libmpfi. */

#include "litre-energy.h"

#include <mpfi.h>
#include <stdio.h>
#include <stdlib.h>
#include <string.h>

enum { PRECISION = 64 };

struct term {
    int i, j;
    const char *n;
};

#define TERM(i, j, n) {i, j, #n},
static const struct term terms[TERMS] = {REGION1_TERMS(TERM)};

/* The sum over some terms of a factor times a power of y. */
struct sum {
    int terms;
    int power[TERMS];
    mpfi_t factor[TERMS];
};

struct water {
    struct sum volume, enthalpy;
};

/* The powers of y at a temperature, from LEAST_POWER on. */
struct heated {
    mpfi_t kelvin;
    mpfi_t powers[MOST_POWER - LEAST_POWER + 1];
};

/* What the computations use, initialised once. */
struct rooms {
    mpfi_t a, a_squared, four_b, zero_celsius, y_offset, gas_constant, enthalpy_unit;
    mpfi_t rise, divisor, inverse, product;
    mpfi_t volume, flow_enthalpy, return_enthalpy;
    struct heated flow, ret;
};

static void set_decimal(mpfi_t constant, const char *decimal)
{
    mpfi_init2(constant, PRECISION);
    if (mpfi_set_str(constant, decimal, 10) != 0) {
        fprintf(stderr, "litre-energy-mpfi: no number %s\n", decimal);
        exit(1);
    }
}

#define DECIMAL(constant) #constant
#define SET_CONSTANT(variable, constant) set_decimal(variable, DECIMAL(constant))

static void init_heated(struct heated *heated)
{
    mpfi_init2(heated->kelvin, PRECISION);
    for (int k = 0; k <= MOST_POWER - LEAST_POWER; k++)
        mpfi_init2(heated->powers[k], PRECISION);
    mpfi_set_ui(heated->powers[-LEAST_POWER], 1);
}

static void init_rooms(struct rooms *rooms)
{
    SET_CONSTANT(rooms->a, PLATINUM_A);
    mpfi_init2(rooms->a_squared, PRECISION);
    mpfi_sqr(rooms->a_squared, rooms->a);
    SET_CONSTANT(rooms->four_b, PLATINUM_B);
    mpfi_mul_ui(rooms->four_b, rooms->four_b, 4);
    SET_CONSTANT(rooms->zero_celsius, 273.15);
    SET_CONSTANT(rooms->y_offset, 1.222);
    SET_CONSTANT(rooms->gas_constant, GAS_CONSTANT);
    mpfi_init2(rooms->enthalpy_unit, PRECISION);
    mpfi_mul_ui(rooms->enthalpy_unit, rooms->gas_constant, 1386);
    mpfi_init2(rooms->rise, PRECISION);
    mpfi_init2(rooms->divisor, PRECISION);
    mpfi_init2(rooms->inverse, PRECISION);
    mpfi_init2(rooms->product, PRECISION);
    mpfi_init2(rooms->volume, PRECISION);
    mpfi_init2(rooms->flow_enthalpy, PRECISION);
    mpfi_init2(rooms->return_enthalpy, PRECISION);
    init_heated(&rooms->flow);
    init_heated(&rooms->ret);
}

/* A term whose factor is n times an integer times a power of x; none where that integer is 0. */
static void add_term(struct sum *sum, const struct term *term, int by, mpfi_srcptr x, int power)
{
    if (by == 0)
        return;
    mpfi_ptr factor = sum->factor[sum->terms];
    set_decimal(factor, term->n);
    mpfi_mul_si(factor, factor, by);
    mpfi_mul(factor, factor, x);
    sum->power[sum->terms++] = power;
}

static void init_water(struct water *water, unsigned long kpa)
{
    mpfi_t x[MOST_I + 1];

    for (int k = 0; k <= MOST_I; k++)
        mpfi_init2(x[k], PRECISION);
    mpfi_set_ui(x[0], 1);
    /* 7.1 - kpa / 16530 */
    mpfi_set_ui(x[1], 117363 - kpa);
    mpfi_div_ui(x[1], x[1], 16530);
    for (int k = 2; k <= MOST_I; k++)
        mpfi_mul(x[k], x[k - 1], x[1]);
    water->volume.terms = water->enthalpy.terms = 0;
    for (const struct term *t = terms; t < terms + TERMS; t++) {
        add_term(&water->volume, t, -t->i, x[t->i > 0 ? t->i - 1 : 0], t->j);
        add_term(&water->enthalpy, t, t->j, x[t->i], t->j - 1);
    }
    for (int k = 0; k <= MOST_I; k++)
        mpfi_clear(x[k]);
}

/* The temperatures in kelvin of a sample, and the powers of y there. */
static void set_heated(struct rooms *rooms, struct heated *heated, uint32_t microohms)
{
    long twice_rise = 2 * ((long)microohms - R0_MICROOHM);

    mpfi_interv_si(rooms->rise, twice_rise - 1, twice_rise + 1);
    mpfi_div_ui(rooms->rise, rooms->rise, 2u * R0_MICROOHM);
    /* 2 rise / (A + sqrt(A^2 - 4 B rise)): both parts make it greater where the rise is greater. */
    mpfi_mul(rooms->divisor, rooms->four_b, rooms->rise);
    mpfi_sub(rooms->divisor, rooms->a_squared, rooms->divisor);
    mpfi_sqrt(rooms->divisor, rooms->divisor);
    mpfi_add(rooms->divisor, rooms->divisor, rooms->a);
    mpfi_mul_2ui(rooms->rise, rooms->rise, 1);
    mpfi_div(heated->kelvin, rooms->rise, rooms->divisor);
    mpfi_add(heated->kelvin, heated->kelvin, rooms->zero_celsius);

    mpfi_t *power = heated->powers - LEAST_POWER;
    mpfi_ui_div(power[1], 1386, heated->kelvin);
    mpfi_sub(power[1], power[1], rooms->y_offset);
    mpfi_inv(power[-1], power[1]);
    for (int k = 2; k <= MOST_POWER; k++)
        mpfi_mul(power[k], power[k - 1], power[1]);
    for (int k = -2; k >= LEAST_POWER; k--)
        mpfi_mul(power[k], power[k + 1], power[-1]);
}

static void add_up(struct rooms *rooms, mpfi_t total, const struct sum *sum, const struct heated *heated)
{
    mpfi_set_ui(total, 0);
    for (int k = 0; k < sum->terms; k++) {
        mpfi_mul(rooms->product, sum->factor[k], heated->powers[sum->power[k] - LEAST_POWER]);
        mpfi_add(total, total, rooms->product);
    }
}

/* In m^3/kg. */
static void set_volume(struct rooms *rooms, mpfi_t volume, const struct water *water, const struct heated *heated)
{
    add_up(rooms, volume, &water->volume, heated);
    mpfi_mul(volume, volume, heated->kelvin);
    mpfi_mul(volume, volume, rooms->gas_constant);
    mpfi_div_ui(volume, volume, 16530);
}

/* In kJ/kg. */
static void set_enthalpy(struct rooms *rooms, mpfi_t enthalpy, const struct water *water, const struct heated *heated)
{
    add_up(rooms, enthalpy, &water->enthalpy, heated);
    mpfi_mul(enthalpy, enthalpy, rooms->enthalpy_unit);
}

/* In millijoules, where the volume is metered in the return. */
static void set_litre(struct rooms *rooms, mpfi_t energy, const struct water *water, struct samples samples)
{
    set_heated(rooms, &rooms->flow, samples.flow);
    set_heated(rooms, &rooms->ret, samples.ret);
    set_enthalpy(rooms, rooms->flow_enthalpy, water, &rooms->flow);
    set_enthalpy(rooms, rooms->return_enthalpy, water, &rooms->ret);
    set_volume(rooms, rooms->volume, water, &rooms->ret);
    mpfi_sub(energy, rooms->flow_enthalpy, rooms->return_enthalpy);
    mpfi_mul_ui(energy, energy, 1000);
    mpfi_div(energy, energy, rooms->volume);
}

/* The ends, rounded outwards to doubles. */
static void print_ends(mpfi_srcptr interval)
{
    printf("%.17g %.17g\n", mpfr_get_d(&interval->left, MPFR_RNDD), mpfr_get_d(&interval->right, MPFR_RNDU));
}

int main(int length, char **words)
{
    if (length != 4) {
        fprintf(stderr, "litre-energy-mpfi list|sum COUNT KPA\n");
        return 2;
    }
    int listed = strcmp(words[1], "list") == 0;
    uint64_t count = strtoull(words[2], NULL, 10);
    static struct water water;
    static struct rooms rooms;
    mpfi_t energy, sum;

    init_water(&water, strtoul(words[3], NULL, 10));
    init_rooms(&rooms);
    mpfi_init2(energy, PRECISION);
    mpfi_init2(sum, PRECISION);
    mpfi_set_ui(sum, 0);
    for (uint64_t k = 0, state = 0; k < count; k++) {
        state = next(state);
        set_litre(&rooms, energy, &water, samples_from(state));
        mpfi_add(sum, sum, energy);
        if (listed)
            print_ends(energy);
    }
    if (!listed)
        print_ends(sum);
    return 0;
}
