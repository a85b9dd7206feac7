/* What the two C programs of bench/litre-energy share: the pairs of samples,
 * which are those of the proved program, and the published constants, as they
 * are printed: TERM(I, J, n) for each term of region 1 of IAPWS-IF97. */

#ifndef LITRE_ENERGY_H
#define LITRE_ENERGY_H

#include <stdint.h>

/* Of a Pt500 (IEC 60751): R(t) = R0 (1 + A t - B t^2). */
#define R0_MICROOHM 500000000
#define PLATINUM_A 3.9083e-3
#define PLATINUM_B 5.775e-7

#define GAS_CONSTANT 0.461526 /* kJ/(kg K) */

#define REGION1_TERMS(TERM) \
    TERM(0, -2, 0.14632971213167) \
    TERM(0, -1, -0.84548187169114) \
    TERM(0, 0, -0.37563603672040e1) \
    TERM(0, 1, 0.33855169168385e1) \
    TERM(0, 2, -0.95791963387872) \
    TERM(0, 3, 0.15772038513228) \
    TERM(0, 4, -0.16616417199501e-1) \
    TERM(0, 5, 0.81214629983568e-3) \
    TERM(1, -9, 0.28319080123804e-3) \
    TERM(1, -7, -0.60706301565874e-3) \
    TERM(1, -1, -0.18990068218419e-1) \
    TERM(1, 0, -0.32529748770505e-1) \
    TERM(1, 1, -0.21841717175414e-1) \
    TERM(1, 3, -0.52838357969930e-4) \
    TERM(2, -3, -0.47184321073267e-3) \
    TERM(2, 0, -0.30001780793026e-3) \
    TERM(2, 1, 0.47661393906987e-4) \
    TERM(2, 3, -0.44141845330846e-5) \
    TERM(2, 17, -0.72694996297594e-15) \
    TERM(3, -4, -0.31679644845054e-4) \
    TERM(3, 0, -0.28270797985312e-5) \
    TERM(3, 6, -0.85205128120103e-9) \
    TERM(4, -5, -0.22425281908000e-5) \
    TERM(4, -2, -0.65171222895601e-6) \
    TERM(4, 10, -0.14341729937924e-12) \
    TERM(5, -8, -0.40516996860117e-6) \
    TERM(8, -11, -0.12734301741641e-8) \
    TERM(8, -6, -0.17424871230634e-9) \
    TERM(21, -29, -0.68762131295531e-18) \
    TERM(23, -31, 0.14478307828521e-19) \
    TERM(29, -38, 0.26335781662795e-22) \
    TERM(30, -39, -0.11947622640071e-22) \
    TERM(31, -40, 0.18228094581404e-23) \
    TERM(32, -41, -0.93537087292458e-25)

enum { TERMS = 34, MOST_I = 32, LEAST_POWER = -42, MOST_POWER = 17 };

/* In microohms. */
struct samples {
    uint32_t flow, ret;
};

/* A linear congruential generator, from which the samples come. */
static inline uint64_t next(uint64_t state)
{
    return state * 6364136223846793005u + 1442695040888963407u;
}

/* A flow of 560 to 828 ohms, 31 to 173 degrees, and a return that is 6 to 56
 * ohms below it, 3 to 30 degrees. */
static inline struct samples samples_from(uint64_t state)
{
    uint32_t flow = 560000001 + 16 * (uint32_t)(state >> 40);
    uint32_t below = 6000000 + 3 * (uint32_t)(next(state) >> 40);

    return (struct samples){flow, flow - below};
}

#endif
