/* litre-energy list|sum COUNT KPA
 *
 * The energies that bench/litre-energy measures, in plain doubles: the
 * yardstick. For each pair of samples the temperatures are the closed roots of
 * the quadratic of IEC 60751; the specific volume and the specific enthalpy are
 * the sums of region 1 of IAPWS-IF97. Their powers of y come from a table, filled
 * by repeated multiplication for each temperature, and those of x, which the
 * pressure alone fixes, from one that is filled once.
 *
 * Prints the energy of a litre at each pair, in millijoules, or the sum of all. */

#include "litre-energy.h"

#include <math.h>
#include <stdio.h>
#include <stdlib.h>
#include <string.h>

struct term {
    int i, j;
    double n;
};

#define TERM(i, j, n) {i, j, n},
static const struct term terms[TERMS] = {REGION1_TERMS(TERM)};

/* The factors, by terms, of the powers of y in the sums of both quantities. */
struct water {
    double volume[TERMS], enthalpy[TERMS];
};

/* The powers of y at a temperature, from LEAST_POWER on. */
struct heated {
    double kelvin;
    double powers[MOST_POWER - LEAST_POWER + 1];
};

/* powers[k] = base^k for k from 0 to most. */
static void fill_powers(double *powers, double base, int most)
{
    powers[0] = 1;
    for (int k = 1; k <= most; k++)
        powers[k] = powers[k - 1] * base;
}

static void set_water(struct water *water, double kpa)
{
    double x[MOST_I + 1];

    fill_powers(x, 7.1 - kpa / 16530, MOST_I);
    for (int k = 0; k < TERMS; k++) {
        const struct term *t = terms + k;
        water->volume[k] = t->i > 0 ? -t->n * t->i * x[t->i - 1] : 0;
        water->enthalpy[k] = t->n * t->j * x[t->i];
    }
}

static void set_heated(struct heated *heated, double celsius)
{
    double kelvin = celsius + 273.15;
    double y = 1386 / kelvin - 1.222;
    double over[1 - LEAST_POWER];

    heated->kelvin = kelvin;
    fill_powers(heated->powers - LEAST_POWER, y, MOST_POWER);
    fill_powers(over, 1 / y, -LEAST_POWER);
    for (int k = LEAST_POWER; k < 0; k++)
        heated->powers[k - LEAST_POWER] = over[-k];
}

/* In m^3/kg. */
static double volume(const struct water *water, const struct heated *heated)
{
    double sum = 0;

    for (int k = 0; k < TERMS; k++)
        sum += water->volume[k] * heated->powers[terms[k].j - LEAST_POWER];
    return GAS_CONSTANT * heated->kelvin * sum / 16530;
}

/* In kJ/kg. */
static double enthalpy(const struct water *water, const struct heated *heated)
{
    double sum = 0;

    for (int k = 0; k < TERMS; k++)
        sum += water->enthalpy[k] * heated->powers[terms[k].j - 1 - LEAST_POWER];
    return GAS_CONSTANT * 1386 * sum;
}

/* The temperature in degrees at which the sensor has so many microohms. The
 * root is written without the difference that would cancel near 0 degrees. */
static double root(double microohms)
{
    double rise = microohms / R0_MICROOHM - 1;

    return 2 * rise / (PLATINUM_A + sqrt(PLATINUM_A * PLATINUM_A - 4 * PLATINUM_B * rise));
}

/* In millijoules, where the volume is metered in the return. */
static double litre(const struct water *water, struct samples samples)
{
    struct heated flow, ret;

    set_heated(&flow, root(samples.flow));
    set_heated(&ret, root(samples.ret));
    return 1000 * (enthalpy(water, &flow) - enthalpy(water, &ret)) / volume(water, &ret);
}

int main(int length, char **words)
{
    if (length != 4) {
        fprintf(stderr, "litre-energy list|sum COUNT KPA\n");
        return 2;
    }
    int listed = strcmp(words[1], "list") == 0;
    uint64_t count = strtoull(words[2], NULL, 10);
    struct water water;
    double sum = 0;

    set_water(&water, strtod(words[3], NULL));
    for (uint64_t k = 0, state = 0; k < count; k++) {
        state = next(state);
        double energy = litre(&water, samples_from(state));
        sum += energy;
        if (listed)
            printf("%.17g\n", energy);
    }
    if (!listed)
        printf("%.17g\n", sum);
    return 0;
}
