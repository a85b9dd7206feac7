/* calls CALL COUNT KPA
 *
 * What the calls that bench/calls measures compute, in plain doubles: the
 * yardstick. Makes a call so many times, of water at so many kPa, at the
 * arguments that the proved program takes, and prints the sums of the lower
 * and of the upper ends of the answers; of water, whose doubles are single
 * numbers, the sum twice.
 *
 * The temperature of a platinum sensor is the closed root of the quadratic of
 * IEC 60751. The sums of the 34 terms of region 1 of IAPWS-IF97 take their
 * powers from two tables, each filled by repeated multiplication: that is
 * several times faster than a call of pow() for each power. */

#include <math.h>
#include <stdint.h>
#include <stdio.h>
#include <stdlib.h>
#include <string.h>

/* Of a Pt500, in ohms, 1/degree and 1/degree^2: R(t) = R0 (1 + A t - B t^2). */
#define R0 500.0
#define A 3.9083e-3
#define B 5.775e-7

#define GAS_CONSTANT 0.461526 /* kJ/(kg K) */

enum { TERMS = 34, MOST_I = 32, LEAST_J = -42, MOST_J = 17 };

struct term {
    int i, j;
    double n;
};

static const struct term terms[TERMS] = {
    {0, -2, 0.14632971213167},
    {0, -1, -0.84548187169114},
    {0, 0, -0.37563603672040e1},
    {0, 1, 0.33855169168385e1},
    {0, 2, -0.95791963387872},
    {0, 3, 0.15772038513228},
    {0, 4, -0.16616417199501e-1},
    {0, 5, 0.81214629983568e-3},
    {1, -9, 0.28319080123804e-3},
    {1, -7, -0.60706301565874e-3},
    {1, -1, -0.18990068218419e-1},
    {1, 0, -0.32529748770505e-1},
    {1, 1, -0.21841717175414e-1},
    {1, 3, -0.52838357969930e-4},
    {2, -3, -0.47184321073267e-3},
    {2, 0, -0.30001780793026e-3},
    {2, 1, 0.47661393906987e-4},
    {2, 3, -0.44141845330846e-5},
    {2, 17, -0.72694996297594e-15},
    {3, -4, -0.31679644845054e-4},
    {3, 0, -0.28270797985312e-5},
    {3, 6, -0.85205128120103e-9},
    {4, -5, -0.22425281908000e-5},
    {4, -2, -0.65171222895601e-6},
    {4, 10, -0.14341729937924e-12},
    {5, -8, -0.40516996860117e-6},
    {8, -11, -0.12734301741641e-8},
    {8, -6, -0.17424871230634e-9},
    {21, -29, -0.68762131295531e-18},
    {23, -31, 0.14478307828521e-19},
    {29, -38, 0.26335781662795e-22},
    {30, -39, -0.11947622640071e-22},
    {31, -40, 0.18228094581404e-23},
    {32, -41, -0.93537087292458e-25},
};

struct sums {
    double lo, hi;
};

/* A linear congruential generator, from which the arguments come. */
static uint64_t next(uint64_t state)
{
    return state * 6364136223846793005u + 1442695040888963407u;
}

/* In microohms, 500 to 835 ohms. */
static uint32_t sample(uint64_t state)
{
    return 500000001 + 20 * (uint32_t)(state >> 40);
}

/* In nanodegrees, 0 to 180 degrees. */
static uint64_t temperature(uint64_t state)
{
    return 2682 * (state >> 38);
}

/* The temperature in degrees at which the sensor has so many microohms. The
 * root is written without the difference that would cancel near 0 degrees. */
static double root(double microohms)
{
    double rise = microohms / (1e6 * R0) - 1;

    return 2 * rise / (A + sqrt(A * A - 4 * B * rise));
}

/* powers[k] = base^k for k from 0 to most. */
static void fill_powers(double *powers, double base, int most)
{
    powers[0] = 1;
    for (int k = 1; k <= most; k++)
        powers[k] = powers[k - 1] * base;
}

struct powers {
    double x[MOST_I + 1];
    double y[MOST_J - LEAST_J + 1]; /* from LEAST_J on */
};

static void set_powers(struct powers *powers, double kpa, double tau)
{
    double y = tau - 1.222;
    double over[1 - LEAST_J];

    fill_powers(powers->x, 7.1 - kpa / 16530, MOST_I);
    fill_powers(powers->y - LEAST_J, y, MOST_J);
    fill_powers(over, 1 / y, -LEAST_J);
    for (int k = LEAST_J; k < 0; k++)
        powers->y[k - LEAST_J] = over[-k];
}

/* In m^3/kg. */
static double volume(double kpa, double celsius)
{
    double kelvin = celsius + 273.15;
    struct powers powers;
    double sum = 0;

    set_powers(&powers, kpa, 1386 / kelvin);
    for (const struct term *t = terms; t < terms + TERMS; t++)
        if (t->i > 0)
            sum -= t->n * t->i * powers.x[t->i - 1] * powers.y[t->j - LEAST_J];
    return GAS_CONSTANT * kelvin * sum / 16530;
}

/* In kJ/kg. */
static double enthalpy(double kpa, double celsius)
{
    struct powers powers;
    double sum = 0;

    set_powers(&powers, kpa, 1386 / (celsius + 273.15));
    for (const struct term *t = terms; t < terms + TERMS; t++)
        sum += t->n * powers.x[t->i] * t->j * powers.y[t->j - 1 - LEAST_J];
    return GAS_CONSTANT * 1386 * sum;
}

static struct sums loop_alone(uint64_t count)
{
    struct sums sums = {0, 0};

    for (uint64_t call = 0, state = 0; call < count; call++) {
        state = next(state);
        sums.lo += sample(state);
        sums.hi += sample(state);
    }
    return sums;
}

/* In whole microdegrees, rounded down. */
static struct sums whole_temps(uint64_t count)
{
    struct sums sums = {0, 0};

    for (uint64_t call = 0, state = 0; call < count; call++) {
        state = next(state);
        uint32_t t = (uint32_t)(root(sample(state)) * 1e6);
        sums.lo += t;
        sums.hi += t;
    }
    return sums;
}

/* In whole nanodegrees, rounded outwards. */
static struct sums cells(uint64_t count)
{
    struct sums sums = {0, 0};

    for (uint64_t call = 0, state = 0; call < count; call++) {
        state = next(state);
        double r = sample(state);
        sums.lo += (uint64_t)(root(r - 0.5) * 1e9);
        sums.hi += (uint64_t)(root(r + 0.5) * 1e9) + 1;
    }
    return sums;
}

static struct sums volumes(double kpa, uint64_t width, uint64_t count)
{
    double sum = 0;

    for (uint64_t call = 0, state = 0; call < count; call++) {
        state = next(state);
        sum += volume(kpa, (temperature(state) + width / 2) * 1e-9);
    }
    return (struct sums){sum, sum};
}

static struct sums enthalpies(double kpa, uint64_t width, uint64_t count)
{
    double sum = 0;

    for (uint64_t call = 0, state = 0; call < count; call++) {
        state = next(state);
        sum += enthalpy(kpa, (temperature(state) + width / 2) * 1e-9);
    }
    return (struct sums){sum, sum};
}

int main(int length, char **words)
{
    if (length != 4) {
        fprintf(stderr, "calls CALL COUNT KPA\n");
        return 2;
    }
    const char *call = words[1];
    uint64_t count = strtoull(words[2], NULL, 10);
    double kpa = strtod(words[3], NULL);
    struct sums sums;

    if (strcmp(call, "loop_alone") == 0)
        sums = loop_alone(count);
    else if (strcmp(call, "whole_temp") == 0)
        sums = whole_temps(count);
    else if (strcmp(call, "cell") == 0)
        sums = cells(count);
    else if (strcmp(call, "volume_span") == 0)
        sums = volumes(kpa, 522, count);
    else if (strcmp(call, "volume_point") == 0)
        sums = volumes(kpa, 0, count);
    else if (strcmp(call, "enthalpy_span") == 0)
        sums = enthalpies(kpa, 522, count);
    else if (strcmp(call, "enthalpy_point") == 0)
        sums = enthalpies(kpa, 0, count);
    else {
        fprintf(stderr, "calls: no call %s\n", call);
        return 2;
    }
    printf("%.17g %.17g\n", sums.lo, sums.hi);
    return 0;
}
