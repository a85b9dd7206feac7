"""Platinum sensors after IEC 60751 at 0 degrees Celsius and above, in whole numbers.

R(t) = R0 (1 + A t - B t^2). Samples are whole microohms, temperatures whole microdegrees Celsius or exact decimals in
degrees. The constants are nominal, or those of a calibration: the value of the key `calibration` of a meter's
configuration (docs/FORMATS.md), which a certificate has likewise.
"""

import functools
import json
import math
from decimal import Decimal
from fractions import Fraction
from typing import Dict, NamedTuple, Optional, Tuple

SENSORS = (100, 500, 1000)
LARGEST_SAMPLE = 2**32 - 1
# The range that counts, in degrees.
LEAST, GREATEST = 0, 180
MOST_BYTES = 4096  # of a configuration
LEAST_A, GREATEST_A = 38_800_000, 39_400_000
LEAST_B, GREATEST_B = 5_500, 6_000
_ONE = 10**10


class Element(NamedTuple):
    """The constants of a sensor."""

    r0: int  # microohms at 0 degrees
    a: int  # of 10^10, a degree
    b: int  # the magnitude, of 10^10, a square degree

    def __str__(self) -> str:
        return f"R0 {Decimal(self.r0) / 10**6:f} ohm, A {Decimal(self.a) / 10**7:f}e-3, B -{Decimal(self.b) / 1000:f}e-7"


class Pair(NamedTuple):
    """The sensors in flow and return, of a kind that has so many ohms at 0 degrees."""

    sensor: int
    flow: Element
    back: Element


def nominal(sensor: int) -> Element:
    return Element(sensor * 10**6, 39_083_000, 5_775)


def nominal_pair(sensor: int) -> Pair:
    return Pair(sensor, nominal(sensor), nominal(sensor))


# Calibrations.


class Misfit(ValueError):
    """What is wrong with a calibration, or with the text that it stands in."""


def ranges_of(sensor: int) -> Dict[str, Tuple[int, int]]:
    """The least and the greatest value of each key of a calibration, in the order of the keys."""
    r0 = sensor * 995_000, sensor * 1_005_000
    ranges = {"r0": r0, "a": (LEAST_A, GREATEST_A), "b": (LEAST_B, GREATEST_B)}
    return {f"{place}_{name}": ends for place in ("flow", "return") for name, ends in ranges.items()}


def read_pair(path: str) -> Pair:
    """The sensors of a configuration or a certificate: its keys `sensor` and `calibration`. An OSError or a `Misfit`."""
    with open(path, "rb") as file:
        octets = file.read(MOST_BYTES + 1)
    if len(octets) > MOST_BYTES:
        raise Misfit(f"it has more than {MOST_BYTES} bytes")
    try:
        value = json.loads(octets.decode("utf-8"))
    except (ValueError, RecursionError):
        raise Misfit("it is no JSON text") from None
    if not isinstance(value, dict):
        raise Misfit("it is no JSON object")
    for key in ("sensor", "calibration"):
        if key not in value:
            raise Misfit(f"the key {key} is missing")
    sensor, calibration = value["sensor"], value["calibration"]
    if not _is_whole(sensor) or sensor not in SENSORS:
        raise Misfit("sensor is none of 100, 500 and 1000")
    if not isinstance(calibration, dict):
        raise Misfit("calibration is no JSON object")
    return _pair_of(sensor, calibration)


def _pair_of(sensor: int, calibration: dict) -> Pair:
    ranges = ranges_of(sensor)
    for key, (least, greatest) in ranges.items():
        if key not in calibration:
            raise Misfit(f"the key {key} of the calibration is missing")
        number = calibration[key]
        if not _is_whole(number) or not least <= number <= greatest:
            raise Misfit(f"{key} is no whole number from {least} to {greatest}, which fit a Pt{sensor}")
    if len(calibration) != len(ranges):
        raise Misfit("the calibration has a key too many")
    numbers = [calibration[key] for key in ranges]
    return Pair(sensor, Element(*numbers[:3]), Element(*numbers[3:]))


def _is_whole(value) -> bool:
    return type(value) is int  # True and False are no numbers


# The curve.


def round_half_even(numerator: int, denominator: int) -> int:
    whole, rest = divmod(numerator, denominator)
    return whole + (2 * rest > denominator or (2 * rest == denominator and whole % 2 == 1))


def _resistance(element: Element, numerator: int, denominator: int) -> Tuple[int, int]:
    """The microohms at a temperature, a fraction of degrees, as a fraction."""
    square = denominator * denominator
    parts = _ONE * square + element.a * numerator * denominator - element.b * numerator * numerator
    return element.r0 * parts, _ONE * square


@functools.lru_cache(maxsize=1 << 16)
def sample_at(element: Element, celsius: Decimal) -> Tuple[int, bool]:
    """The resistance at a temperature, rounded half to even to whole microohms, and whether that is exact."""
    numerator, denominator = _resistance(element, *celsius.as_integer_ratio())
    return round_half_even(numerator, denominator), numerator % denominator == 0


def in_range(element: Element, sample: int) -> bool:
    """Whether a sample lies within the resistances at 0 and 180 degrees by one microohm."""
    return all(
        sign * (sample * denominator - numerator) >= denominator
        for sign, end in ((1, LEAST), (-1, GREATEST))
        for numerator, denominator in [_resistance(element, end, 1)]
    )


@functools.lru_cache(maxsize=1 << 16)
def whole_temperature(element: Element, sample: int) -> Optional[int]:
    """The greatest whole number of microdegrees at which the resistance is at most the sample; None: out of range."""
    if not in_range(element, sample):
        return None
    low, high = LEAST * 10**6, GREATEST * 10**6
    while low < high:
        middle = (low + high + 1) // 2
        numerator, denominator = _resistance(element, middle, 10**6)
        if numerator <= sample * denominator:
            low = middle
        else:
            high = middle - 1
    return low


def cell(element: Element, sample: int) -> Tuple[int, int]:
    """The temperatures within half a microohm of a sample, in nanodegrees: from the last whole one at or below them
    to the first at or above."""
    return _nanodegrees(element, 2 * sample - 1)[0], _nanodegrees(element, 2 * sample + 1)[1]


def _nanodegrees(element: Element, half_microohms: int) -> Tuple[int, int]:
    """The whole nanodegrees at or below the temperature of this resistance and at or above it, exactly.

    t = (A - root of (A^2 - 4 B (R/R0 - 1))) / (2 B), with all times 10^19."""
    a, b = Fraction(element.a, _ONE), Fraction(element.b, _ONE)
    square = 10**38 * (a**2 - 4 * b * (Fraction(half_microohms, 2 * element.r0) - 1))
    least_root, most_root = math.isqrt(math.floor(square)), math.isqrt(math.ceil(square) - 1) + 1
    whole, step = element.a * 10**9, 2 * element.b
    return (whole - most_root) // step, -((least_root - whole) // step)


def rounding(element: Element) -> Fraction:
    """By how many kelvin half a microohm can move a temperature of 0 to 180 degrees: at the least slope, at 180."""
    slope = Fraction(element.r0 * (element.a - 2 * element.b * GREATEST), _ONE)  # microohms a kelvin
    return Fraction(1, 2) / slope
