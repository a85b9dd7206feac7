"""A second meter: what docs/FORMATS.md says of scripts, configurations, memories and readouts, in Python.

Written from the formats, apart from the program, so that `bench/fuzz` and `bench/torn` can say beforehand what has to
come, to the byte. One thing it takes from the program: energy and bound of a pulse line, which it only judges, by
IAPWS-IF97 in doubles. Standard library alone, Python 3.9 or later.
"""

import datetime
import math
import re
from dataclasses import dataclass, replace
from typing import List, Optional, Tuple

MEMORY_BYTES = 16384
MARK = 0xA5
GATE = 256
SLOTS = (512, 2048)
SLOT_BYTES = 1280
FORMATTED_BYTES = 1792
MOST_EVENTS = 10**18
MOST_PULSES = 10**15
LAST_DAY = 36524
MOST_MONTHS = 24
MOST_SAMPLE = 4294967295

FIRST = datetime.date(2000, 1, 1)


def date_of(day: int) -> datetime.date:
    return FIRST + datetime.timedelta(day)


def day_text(day: int) -> str:
    return date_of(day).isoformat()


def month_begin(day: int) -> int:
    """The first day of the month of a day."""
    return day - date_of(day).day + 1


def next_month(day: int) -> int:
    """The first day of the month after that of a day."""
    return month_begin(month_begin(day) + 31)


# Configurations.


@dataclass(frozen=True)
class Element:
    """A platinum element: R0 in microohms, A in 10^-10 per °C, the magnitude of B in 10^-10 per °C^2."""

    r0: int
    a: int = 39083000
    b: int = 5775

    def octets(self) -> bytes:
        return self.r0.to_bytes(4, "little") + self.a.to_bytes(4, "little") + self.b.to_bytes(2, "little") + bytes(2)


# Each constant of a calibrated sensor of so many ohms, with its range.
def constant_ranges(ohms: int):
    return ((ohms * 995000, ohms * 1005000), (38800000, 39400000), (5500, 6000))


@dataclass(frozen=True)
class Config:
    serial: str = "12345678"
    maker: str = "ABC"
    version: int = 1
    address: int = 1
    place: str = "return"
    pressure_kpa: int = 1600
    sensor: int = 500
    litres_per_pulse: int = 10
    energy_decimals: int = 0
    volume_decimals: int = 2
    set_month: int = 1
    opening_day: int = 8780  # 2024-01-15
    calibration: Optional[Tuple[Element, Element]] = None

    @property
    def elements(self) -> Tuple[Element, Element]:
        """Those of the flow and of the return."""
        return self.calibration or (Element(self.sensor * 10**6),) * 2

    def header(self) -> bytes:
        fields = (
            bytes([MARK, 1]),
            int(self.serial).to_bytes(4, "little"),
            self.maker.encode("ascii"),
            bytes([self.version, self.address, 0 if self.place == "flow" else 1]),
            self.pressure_kpa.to_bytes(2, "little"),
            self.sensor.to_bytes(2, "little"),
            self.litres_per_pulse.to_bytes(2, "little"),
            bytes([self.energy_decimals, self.volume_decimals, self.set_month, 0]),
            self.opening_day.to_bytes(2, "little"),
        )
        if self.calibration:
            fields += (bytes([1, 0, 0, 0]), *(element.octets() for element in self.calibration))
        return b"".join(fields).ljust(256, b"\0")


KEYS = (
    "serial",
    "maker",
    "version",
    "address",
    "place",
    "pressure_kpa",
    "sensor",
    "litres_per_pulse",
    "energy_decimals",
    "volume_decimals",
    "set_month",
    "opening_day",
)
MOST_CONFIGURATION = 4096
WHOLE_RANGES = {
    "version": (0, 255),
    "address": (0, 250),
    "pressure_kpa": (1100, 4000),
    "energy_decimals": (0, 3),
    "volume_decimals": (0, 3),
    "set_month": (1, 12),
}
CHOICES = {"sensor": (100, 500, 1000), "litres_per_pulse": (1, 10, 100, 1000)}


class ConfigFault(Exception):
    """A configuration that is refused; its text is the program's behind `config: `."""


class Unsure(Exception):
    """A number at the very edge of binary64, where this reader doesn't say what has to come."""


class NotWhole:
    """A number that is no whole number from 0 to 2^64 - 1."""


NOT_WHOLE = NotWhole()


class JsonReader:
    """One JSON text after RFC 8259, with the limits of the formats."""

    DEPTH = 127
    NUMBER = re.compile(r"-?(?:0|[1-9][0-9]*)(\.[0-9]+)?([eE][+-]?[0-9]+)?", re.ASCII)
    ESCAPES = {'"': '"', "\\": "\\", "/": "/", "b": "\b", "f": "\f", "n": "\n", "r": "\r", "t": "\t"}
    WORDS = {"true": True, "false": False, "null": None}

    def __init__(self, octets: bytes):
        try:
            self.text = octets.decode("utf-8")
        except UnicodeDecodeError:
            raise ConfigFault("text") from None
        self.at = 0

    def whole(self):
        value = self.value(0)
        self.space()
        if self.at != len(self.text):
            raise ConfigFault("text")
        return value

    def peek(self) -> str:
        return self.text[self.at : self.at + 1]

    def space(self):
        while self.peek() and self.peek() in " \t\n\r":
            self.at += 1

    def take(self, one: str):
        if self.peek() != one:
            raise ConfigFault("text")
        self.at += 1

    def value(self, depth: int):
        self.space()
        first = self.peek()
        if first == "{" or first == "[":
            if depth == self.DEPTH:
                raise ConfigFault("text")
            self.at += 1
            return self.members(depth + 1) if first == "{" else self.items(depth + 1)
        if first == '"':
            return self.string()
        for word, value in self.WORDS.items():
            if self.text.startswith(word, self.at):
                self.at += len(word)
                return value
        return self.number()

    def members(self, depth: int) -> dict:
        made = {}
        self.space()
        if self.peek() == "}":
            self.at += 1
            return made
        while True:
            self.space()
            key = self.string()
            self.space()
            self.take(":")
            made[key] = self.value(depth)
            self.space()
            if self.peek() == "}":
                self.at += 1
                return made
            self.take(",")

    def items(self, depth: int) -> list:
        made = []
        self.space()
        if self.peek() == "]":
            self.at += 1
            return made
        while True:
            made.append(self.value(depth))
            self.space()
            if self.peek() == "]":
                self.at += 1
                return made
            self.take(",")

    def string(self) -> str:
        self.take('"')
        made = []
        while True:
            one = self.peek()
            if one == "" or one < " ":
                raise ConfigFault("text")
            self.at += 1
            if one == '"':
                return "".join(made)
            made.append(self.escaped() if one == "\\" else one)

    def escaped(self) -> str:
        one = self.peek()
        self.at += 1
        if one in self.ESCAPES and one:
            return self.ESCAPES[one]
        if one != "u":
            raise ConfigFault("text")
        unit = self.unit()
        if 0xDC00 <= unit < 0xE000:
            raise ConfigFault("text")
        if 0xD800 <= unit < 0xDC00:
            self.take("\\")
            self.take("u")
            low = self.unit()
            if not 0xDC00 <= low < 0xE000:
                raise ConfigFault("text")
            unit = 0x10000 + ((unit - 0xD800) << 10) + low - 0xDC00
        return chr(unit)

    def unit(self) -> int:
        digits = self.text[self.at : self.at + 4]
        if not re.fullmatch("[0-9A-Fa-f]{4}", digits):
            raise ConfigFault("text")
        self.at += 4
        return int(digits, 16)

    def number(self):
        found = self.NUMBER.match(self.text, self.at)
        if not found:
            raise ConfigFault("text")
        self.at = found.end()
        if found[1] or found[2] or found[0].startswith("-"):
            check_binary64(found[0])
            return NOT_WHOLE
        if len(found[0]) > 19:
            check_binary64(found[0])
        value = int(found[0]) if len(found[0]) <= 20 else 2**64
        return value if value < 2**64 else NOT_WHOLE


def check_binary64(text: str):
    """Refuses a number beyond the range of binary64."""
    mantissa, _, exponent = text.lower().lstrip("-").partition("e")
    whole, _, fraction = mantissa.partition(".")
    digits = (whole + fraction).lstrip("0")
    if not digits:
        return
    magnitude = len(digits) - len(fraction) + int(exponent or 0)
    if magnitude > 309:
        raise ConfigFault("text")
    if magnitude == 309:
        leading = digits[:8].ljust(8, "0")
        if leading > "17976932":
            raise ConfigFault("text")
        if leading >= "17976931":
            raise Unsure


def read_config(octets: bytes) -> Config:
    """The configuration that a text says, or a `ConfigFault`."""
    if len(octets) > MOST_CONFIGURATION:
        raise ConfigFault("too long")
    value = JsonReader(octets).whole()
    if not isinstance(value, dict):
        raise ConfigFault("not an object")
    made = {}
    for key in KEYS:
        if key not in value:
            raise ConfigFault(f"missing {key}")
        made[key] = config_value(key, value[key])
    if "calibration" in value:
        made["calibration"] = read_calibration(made["sensor"], value["calibration"])
    for place, key in enumerate(sorted(value, key=lambda key: key.encode())):
        if key not in KEYS and key != "calibration":
            raise ConfigFault(f"unknown key {place}")
    return Config(**made)


def read_calibration(ohms: int, value) -> Tuple[Element, Element]:
    names = [[f"{side}_{constant}" for constant in ("r0", "a", "b")] for side in ("flow", "return")]
    wrong = ConfigFault("wrong calibration")
    if not isinstance(value, dict) or set(value) != set(sum(names, [])):
        raise wrong
    for side in names:
        for name, (least, most) in zip(side, constant_ranges(ohms)):
            if type(value[name]) is not int or not least <= value[name] <= most:
                raise wrong
    return tuple(Element(*(value[name] for name in side)) for side in names)


def config_value(key: str, value):
    wrong = ConfigFault(f"wrong {key}")
    if key in WHOLE_RANGES or key in CHOICES:
        if type(value) is not int:
            raise wrong
        least, most = WHOLE_RANGES.get(key, (0, 2**64))
        if not least <= value <= most or value not in CHOICES.get(key, (value,)):
            raise wrong
        return value
    if not isinstance(value, str):
        raise wrong
    if key == "opening_day":
        day = read_day(value.encode())
        if day is None:
            raise wrong
        return day
    if key == "place":
        if value not in ("flow", "return"):
            raise wrong
    elif not re.fullmatch("[0-9]{8}" if key == "serial" else "[A-Z]{3}", value, re.ASCII):
        raise wrong
    return value


DAY = re.compile(rb"(20[0-9][0-9])-([0-9][0-9])-([0-9][0-9])")


def read_day(word: bytes) -> Optional[int]:
    found = DAY.fullmatch(word)
    try:
        return (datetime.date(*map(int, found.groups())) - FIRST).days if found else None
    except ValueError:
        return None


# Records.


@dataclass(frozen=True)
class Entry:
    day: int
    pulses: int
    energy: int
    bound: int

    def octets(self) -> bytes:
        return (
            self.day.to_bytes(2, "little")
            + bytes(6)
            + self.pulses.to_bytes(8, "little")
            + self.energy.to_bytes(16, "little", signed=True)
            + self.bound.to_bytes(16, "little")
        )


@dataclass(frozen=True)
class Record:
    day: int
    seq: int = 0
    samples: Optional[Tuple[int, int]] = None
    faulty: int = 0
    pulses: int = 0
    energy: int = 0
    bound: int = 0
    set_day: Optional[Entry] = None
    months: Tuple[Entry, ...] = ()

    def octets(self) -> bytes:
        flow, back = self.samples or (0, 0)
        fields = (
            self.seq.to_bytes(8, "little"),
            self.day.to_bytes(2, "little"),
            bytes([self.samples is not None, len(self.months), self.set_day is not None]),
            bytes(3),
            flow.to_bytes(4, "little"),
            back.to_bytes(4, "little"),
            self.faulty.to_bytes(8, "little"),
            self.pulses.to_bytes(8, "little"),
            self.energy.to_bytes(16, "little", signed=True),
            self.bound.to_bytes(16, "little"),
            self.set_day.octets() if self.set_day else bytes(48),
            b"".join(entry.octets() for entry in self.months).ljust(MOST_MONTHS * 48, b"\0"),
            bytes(8),
        )
        return b"".join(fields)

    def entry(self, day: int) -> Entry:
        return Entry(day, self.pulses, self.energy, self.bound)

    def moved_to(self, day: int, set_month: int) -> "Record":
        """The record after a date: an entry for each month that has begun since."""
        months, set_day = list(self.months), self.set_day
        begin = next_month(self.day)
        while begin <= day:
            months.append(self.entry(begin))
            if date_of(begin).month == set_month:
                set_day = self.entry(begin)
            if begin + 31 > LAST_DAY:
                break
            begin = next_month(begin)
        return replace(self, day=day, months=tuple(months[-MOST_MONTHS:]), set_day=set_day)


class Foreign(Exception):
    """A field of a memory breaks its rule."""

    def __init__(self, at: int):
        super().__init__(f"foreign at {at}")
        self.at = at


class Unformatted(Exception):
    def __init__(self, mark: int):
        super().__init__(f"not formatted: {mark:02x}")


class Fields:
    """Reads fields one after the other from a place in a memory on."""

    def __init__(self, memory: bytes, at: int):
        self.memory, self.at, self.last = memory, at, at

    def number(self, count: int, signed: bool = False) -> int:
        self.last, self.at = self.at, self.at + count
        return int.from_bytes(self.memory[self.last : self.at], "little", signed=signed)

    def hold(self, rule: bool):
        """The field that was read last keeps its rule."""
        if not rule:
            raise Foreign(self.last)

    def ranged(self, count: int, most: int, least: int = 0) -> int:
        value = self.number(count)
        self.hold(least <= value <= most)
        return value

    def one_of(self, count: int, values) -> int:
        value = self.number(count)
        self.hold(value in values)
        return value


def read_header(memory: bytes) -> Config:
    if memory[0] != MARK:
        raise Unformatted(memory[0])
    fields = Fields(memory, 1)
    fields.hold(fields.number(1) % 2 == 1)
    serial = fields.ranged(4, 99999999)
    maker = "".join(chr(fields.ranged(1, 0x5A, 0x41)) for _ in range(3))
    config = Config(
        serial=f"{serial:08}",
        maker=maker,
        version=fields.number(1),
        address=fields.ranged(1, 250),
        place=("flow", "return")[fields.one_of(1, (0, 1))],
        pressure_kpa=fields.ranged(2, 4000, 1100),
        sensor=fields.one_of(2, (100, 500, 1000)),
        litres_per_pulse=fields.one_of(2, (1, 10, 100, 1000)),
        energy_decimals=fields.ranged(1, 3),
        volume_decimals=fields.ranged(1, 3),
        set_month=fields.ranged(1, 12, 1),
        opening_day=(fields.one_of(1, (0,)), fields.ranged(2, LAST_DAY))[1],
    )
    is_calibrated = fields.ranged(1, 1)
    for _ in range(3):
        fields.one_of(1, (0,))
    elements = [read_element(fields, config.sensor, is_calibrated) for _ in range(2)]
    for _ in range(204):
        fields.one_of(1, (0,))
    return replace(config, calibration=tuple(elements)) if is_calibrated else config


def read_element(fields: Fields, ohms: int, is_calibrated: int) -> Element:
    ranges = constant_ranges(ohms) if is_calibrated else ((0, 0),) * 3
    constants = [fields.ranged(count, most, least) for count, (least, most) in zip((4, 4, 2), ranges)]
    for _ in range(2):
        fields.one_of(1, (0,))
    return Element(*constants)


def may_hold(pulses: int, energy: int, bound: int) -> bool:
    return abs(energy) <= 2 * 10**12 * pulses and bound <= 2 * 10**6 * pulses


def read_record(memory: bytes, slot: int) -> Record:
    fields = Fields(memory, slot)
    seq = fields.ranged(8, MOST_EVENTS)
    day = fields.ranged(2, LAST_DAY)
    in_force = fields.one_of(1, (0, 1))
    count = fields.ranged(1, MOST_MONTHS)
    is_set = fields.one_of(1, (0, 1))
    fields.one_of(3, (0,))
    samples = [fields.ranged(4, MOST_SAMPLE if in_force else 0) for _ in range(2)]
    faulty = fields.ranged(8, MOST_PULSES)
    pulses = fields.ranged(8, MOST_PULSES, faulty)
    energy = fields.number(16, signed=True)
    fields.hold(may_hold(pulses, energy, 0))
    bound = fields.number(16)
    fields.hold(may_hold(pulses, 0, bound))
    set_day = read_entry(fields, is_set, lambda entry: entry.day <= day and entry.pulses <= pulses)
    months: List[Entry] = []

    def follows(entry: Entry) -> bool:
        return (
            entry.pulses <= pulses
            and (not months or entry.day == next_month(months[-1].day) and entry.pulses >= months[-1].pulses)
            and (len(months) + 1 < count or entry.day == month_begin(day))
        )

    for number in range(MOST_MONTHS):
        entry = read_entry(fields, number < count, follows)
        if entry:
            months.append(entry)
    fields.one_of(8, (0,))
    return Record(
        day, seq, tuple(samples) if in_force else None, faulty, pulses, energy, bound, set_day, tuple(months)
    )


def read_entry(fields: Fields, is_kept: bool, rule) -> Optional[Entry]:
    octets = fields.memory[fields.at : fields.at + 48]
    fields.last, fields.at = fields.at, fields.at + 48
    if not is_kept:
        fields.hold(octets == bytes(48))
        return None
    entry = Entry(
        int.from_bytes(octets[:2], "little"),
        int.from_bytes(octets[8:16], "little"),
        int.from_bytes(octets[16:32], "little", signed=True),
        int.from_bytes(octets[32:48], "little"),
    )
    fields.hold(entry.day <= LAST_DAY and date_of(entry.day).day == 1 and octets[2:8] == bytes(6))
    fields.hold(may_hold(entry.pulses, entry.energy, entry.bound) and rule(entry))
    return entry


def slot_in_force(memory: bytes) -> int:
    return memory[GATE] % 2


def recover(memory: bytes) -> Tuple[Config, Record]:
    """What a memory stands for, or `Unformatted` or `Foreign`."""
    config = read_header(memory)
    return config, read_record(memory, SLOTS[slot_in_force(memory)])


def formatted(config: Config, before: bytes = bytes(MEMORY_BYTES)) -> bytes:
    """The memory that `init` leaves, over one that isn't formatted."""
    front = config.header() + bytes(SLOTS[0] - 256) + Record(config.opening_day).octets()
    return front + before[FORMATTED_BYTES:]


# Lines of `show` and `slots`.


def display(value: int, unit: int, decimals: int) -> str:
    """Eight digits of a register in units, rounded down, with their point."""
    digits = f"{value * 10**decimals // unit % 10**8:08}"
    return digits[: 8 - decimals] + "." + digits[8 - decimals :] if decimals else digits


def energy_text(config: Config, energy: int) -> str:
    return display(energy, 3_600_000_000, config.energy_decimals)


def volume_text(config: Config, pulses: int) -> str:
    return display(pulses * config.litres_per_pulse, 1000, config.volume_decimals)


def register_text(config: Config, entry) -> str:
    return f"{entry.pulses * config.litres_per_pulse} {entry.energy} {entry.bound}"


def show_lines(config: Config, record: Record) -> List[str]:
    kept = record.set_day
    return [
        f"serial {config.serial}",
        f"day {day_text(record.day)}",
        f"seq {record.seq}",
        f"volume {volume_text(config, record.pulses)} m3",
        f"energy {energy_text(config, record.energy)} kWh",
        f"register {register_text(config, record)}",
        f"faulty {record.faulty}",
        f"set {day_text(kept.day)} {register_text(config, kept)}" if kept else "set -",
    ] + [f"month {day_text(entry.day)} {register_text(config, entry)}" for entry in record.months]


def slots_lines(memory: bytes) -> List[str]:
    """Raises `Unformatted`, or `Foreign` of the header alone."""
    read_header(memory)
    lines = [f"gate {'ab'[slot_in_force(memory)]}"]
    for name, slot in zip("ab", SLOTS):
        try:
            lines.append(f"{name} {read_record(memory, slot).seq}")
        except Foreign as fault:
            lines.append(f"{name} foreign {fault.at}")
    return lines


# Scripts.


class WordFault(Exception):
    """The place of a line's first wrong, missing or extra word."""

    def __init__(self, word: int):
        super().__init__(f"word {word}")


NUMBER = re.compile(rb"0|[1-9][0-9]*")


def read_number(word: bytes, least: int, most: int) -> Optional[int]:
    if not NUMBER.fullmatch(word) or len(word) > 20:
        return None
    value = int(word)
    return value if least <= value <= most else None


def read_hex(word: bytes) -> Optional[bytes]:
    if not re.fullmatch(rb"([0-9A-Fa-f]{2})+", word):
        return None
    return bytes.fromhex(word.decode("ascii"))


def read_fill(word: bytes) -> Optional[int]:
    octets = read_hex(word)
    return octets[0] if octets and len(octets) == 1 else None


def _whole(least: int, most: int):
    return lambda word: read_number(word, least, most)


LINES = {
    b"sample": (_whole(0, MOST_SAMPLE), _whole(0, MOST_SAMPLE)),
    b"pulse": (_whole(1, MOST_PULSES),),
    b"date": (read_day,),
    b"opt": (read_hex,),
    b"mbus": (read_hex,),
    b"power": (),
    b"cut": (_whole(1, 65535), _whole(0, 16384), read_fill),
}
EVENTS = ("sample", "pulse", "date")
MOST_LINE = 120


def read_line(line: bytes) -> list:
    """The line's name and values, or a `WordFault`."""
    words = line.split(b" ")
    rules = LINES.get(words[0])
    if rules is None:
        raise WordFault(0)
    values = [words[0].decode("ascii")]
    for place, rule in enumerate(rules, 1):
        value = rule(words[place]) if place < len(words) else None
        if value is None:
            raise WordFault(place)
        values.append(value)
    if len(words) > len(rules) + 1:
        raise WordFault(len(rules) + 1)
    return values


def script_lines(script: bytes) -> List[bytes]:
    lines = script.split(b"\n")
    if not lines[-1]:
        lines.pop()
    return lines


# Platinum and water.


def scaled_resistance(element: Element, micro: int) -> int:
    """10^22 times the microohms at so many microdegrees, exactly: R = R0 (1 + A t - B t^2)."""
    return element.r0 * (10**22 + element.a * 10**6 * micro - element.b * micro * micro)


def is_at_most(element: Element, micro: int, sample: int) -> bool:
    """Whether the resistance at so many microdegrees is at most the sample, exactly."""
    return scaled_resistance(element, micro) <= sample * 10**22


TOP = 180_000_000


def in_range(element: Element, sample: int) -> bool:
    """At least a microohm above the resistance at 0 °C, and below that at 180 °C."""
    return is_at_most(element, 0, sample - 1) and scaled_resistance(element, TOP) >= (sample + 1) * 10**22


def whole_temperature(element: Element, sample: int) -> Optional[int]:
    """The greatest whole number of microdegrees at which the resistance is at most the sample."""
    if not in_range(element, sample):
        return None
    guess = int(celsius(element, sample) * 10**6)
    micro = min(max(guess, 0), TOP)
    while not is_at_most(element, micro, sample):
        micro -= 1
    while micro < TOP and is_at_most(element, micro + 1, sample):
        micro += 1
    return micro


def celsius(element: Element, sample: float) -> float:
    a, b = element.a * 1e-10, -element.b * 1e-10
    c = 1 - sample / element.r0
    return (-a + math.sqrt(a * a - 4 * b * c)) / (2 * b)


# The published rows of region 1: I, J, n.
REGION_1 = (
    (0, -2, 0.14632971213167), (0, -1, -0.84548187169114), (0, 0, -3.756360367204), (0, 1, 3.3855169168385),
    (0, 2, -0.95791963387872), (0, 3, 0.15772038513228), (0, 4, -0.016616417199501), (0, 5, 0.00081214629983568),
    (1, -9, 0.00028319080123804), (1, -7, -0.00060706301565874), (1, -1, -0.018990068218419),
    (1, 0, -0.032529748770505), (1, 1, -0.021841717175414), (1, 3, -5.283835796993e-05),
    (2, -3, -0.00047184321073267), (2, 0, -0.00030001780793026), (2, 1, 4.7661393906987e-05),
    (2, 3, -4.4141845330846e-06), (2, 17, -7.2694996297594e-16), (3, -4, -3.1679644845054e-05),
    (3, 0, -2.8270797985312e-06), (3, 6, -8.5205128120103e-10), (4, -5, -2.2425281908e-06),
    (4, -2, -6.5171222895601e-07), (4, 10, -1.4341729937924e-13), (5, -8, -4.0516996860117e-07),
    (8, -11, -1.2734301741641e-09), (8, -6, -1.7424871230634e-10), (21, -29, -6.8762131295531e-19),
    (23, -31, 1.4478307828521e-20), (29, -38, 2.6335781662795e-23), (30, -39, -1.1947622640071e-23),
    (31, -40, 1.8228094581404e-24), (32, -41, -9.3537087292458e-26),
)
GAS = 0.461526


def volume(pressure: int, degrees: float) -> float:
    """Specific volume in m3/kg."""
    kelvin = degrees + 273.15
    x, y = 7.1 - pressure / 16530, 1386 / kelvin - 1.222
    return GAS * kelvin * math.fsum(-n * i * x ** (i - 1) * y**j for i, j, n in REGION_1 if i) / 16530


def enthalpy(pressure: int, degrees: float) -> float:
    """Specific enthalpy in kJ/kg."""
    x, y = 7.1 - pressure / 16530, 1386 / (degrees + 273.15) - 1.222
    return GAS * 1386 * math.fsum(n * x**i * j * y ** (j - 1) for i, j, n in REGION_1 if j)


def litre_energy(config: Config, samples: Tuple[int, int]) -> float:
    """Millijoules of a litre, in doubles, at the temperatures of the samples themselves."""
    flow, back = map(celsius, config.elements, samples)
    hot, cold = enthalpy(config.pressure_kpa, flow), enthalpy(config.pressure_kpa, back)
    return 1000 * (hot - cold) / volume(config.pressure_kpa, flow if config.place == "flow" else back)


LEAST_DIFFERENCE = 10_000


def counts(config: Config, samples: Optional[Tuple[int, int]]) -> bool:
    if samples is None:
        return False
    flow, back = map(whole_temperature, config.elements, samples)
    return flow is not None and back is not None and flow >= back + LEAST_DIFFERENCE


def are_faulty(config: Config, samples: Optional[Tuple[int, int]]) -> bool:
    return samples is not None and not all(map(in_range, config.elements, samples))


def fits(config: Config, record: Record, pulses: int, energy: int, bound: int) -> bool:
    """Whether a pulse line may have added this energy with this bound: by the promises of the formats, with the
    exact energy of a litre taken in doubles, whose own error is far below 10^-8 of it and 0.01 mJ."""
    litres = pulses * config.litres_per_pulse
    if not counts(config, record.samples):
        return energy == 0 and bound == 0
    if not (1200 * litres <= bound <= 2000 * litres and 12 * bound <= litres * (15600 + 2 * 2800)):
        return False
    near = litres * litre_energy(config, record.samples)
    return abs(energy - near) <= (bound - 1200 * litres) + abs(near) * 1e-8 + 0.01 * litres + 1


# Readouts.


class Head:
    """The optical head."""

    def __init__(self):
        self.selected = False

    REQUEST = re.compile(rb"/\?([A-Za-z0-9 ]{0,32})!\r\n")
    OPTION = re.compile(rb"\x060[0-6]0\r\n")

    def hear(self, message: bytes, config: Config, record: Record) -> Optional[bytes]:
        was_selected, self.selected = self.selected, False
        request = self.REQUEST.fullmatch(message)
        if request:
            address = request[1]
            if address and address.lstrip(b"0") != config.serial.encode().lstrip(b"0"):
                return None
            self.selected = True
            return f"/{config.maker}5HEAT\r\n".encode()
        if was_selected and self.OPTION.fullmatch(message):
            return data_message(config, record)
        return None


def data_message(config: Config, record: Record) -> bytes:
    lines = [
        f"9.21({config.serial})",
        f"6.8({energy_text(config, record.energy)}*kWh)",
        f"6.26({volume_text(config, record.pulses)}*m3)",
        f"9.36({day_text(record.day)})",
    ]
    entries = [(1, record.set_day)] if record.set_day else []
    entries += list(enumerate(reversed(record.months), 2))
    for mark, entry in entries:
        lines.append(f"6.8*{mark:02}({day_text(entry.day)})({energy_text(config, entry.energy)}*kWh)")
        lines.append(f"6.26*{mark:02}({day_text(entry.day)})({volume_text(config, entry.pulses)}*m3)")
    checked = "".join(line + "\r\n" for line in lines).encode() + b"!\r\n\x03"
    check = 0
    for octet in checked:
        check ^= octet
    return b"\x02" + checked + bytes([check])


class Slave:
    """The slave on the M-Bus."""

    def __init__(self):
        self.reading = None  # the frozen record, the number of the telegram given, its access number, the C of its request
        self.given = 0

    def hear(self, octets: bytes, config: Config, record: Record) -> Optional[bytes]:
        if len(octets) != 5 or octets[0] != 0x10 or octets[4] != 0x16 or (octets[1] + octets[2]) % 256 != octets[3]:
            return None
        control, address = octets[1], octets[2]
        if control == 0x40 and address in (config.address, 0xFE, 0xFF):
            self.reading = None
            return b"\xe5" if address != 0xFF else None
        if control not in (0x5B, 0x7B) or address not in (config.address, 0xFE):
            return None
        if self.reading and self.reading[3] == control:
            frozen, number, access, _ = self.reading
            return telegram(config, frozen, number, access)
        number, frozen = 0, record
        if self.reading and self.reading[1] + 1 < telegram_count(self.reading[0]):
            frozen, number = self.reading[0], self.reading[1] + 1
        self.reading = (frozen, number, self.given % 256, control)
        self.given += 1
        return telegram(config, frozen, number, self.reading[2])


ENTRIES_IN_TELEGRAM = 8


def telegram_count(record: Record) -> int:
    return 1 + -(-len(record.months) // ENTRIES_IN_TELEGRAM)


def bcd(digits: str) -> bytes:
    return bytes.fromhex(digits)[::-1]


def type_g(day: int) -> bytes:
    moment = date_of(day)
    year = moment.year - 2000
    return bytes([moment.day + 32 * (year % 8), moment.month + 16 * (year // 8)])


def telegram(config: Config, record: Record, number: int, access: int) -> bytes:
    letters = [ord(letter) - 64 for letter in config.maker]
    maker = 1024 * letters[0] + 32 * letters[1] + letters[2]
    header = bcd(config.serial) + maker.to_bytes(2, "little")
    header += bytes([config.version, 0x04 if config.place == "return" else 0x0C, access, 0, 0, 0])
    body = header + (telegram_now(config, record) if number == 0 else telegram_months(config, record, number))
    if number + 1 < telegram_count(record):
        body += b"\x1f"
    counted = bytes([0x08, config.address, 0x72]) + body
    length = len(counted)
    return bytes([0x68, length, length, 0x68]) + counted + bytes([sum(counted) % 256, 0x16])


def registers(config: Config, entry, information: bytes) -> bytes:
    """The records of energy and volume, of an entry or a record."""
    energy = energy_text(config, entry.energy).replace(".", "")
    litres = volume_text(config, entry.pulses).replace(".", "")
    return (
        information + bytes([0x06 - config.energy_decimals]) + bcd(energy)
        + information + bytes([0x16 - config.volume_decimals]) + bcd(litres)
    )


def telegram_now(config: Config, record: Record) -> bytes:
    body = registers(config, record, b"\x0c")
    flow, back = map(whole_temperature, config.elements, record.samples or (0, 0))
    if flow is not None:
        body += b"\x04\x58" + (flow // 1000).to_bytes(4, "little")
    if back is not None:
        body += b"\x04\x5c" + (back // 1000).to_bytes(4, "little")
    if flow is not None and back is not None:
        body += b"\x04\x60" + ((flow - back) // 1000).to_bytes(4, "little", signed=True)
    body += b"\x02\x6c" + type_g(record.day)
    if record.set_day:
        body += b"\x42\x6c" + type_g(record.set_day.day) + registers(config, record.set_day, b"\x4c")
    return body


def telegram_months(config: Config, record: Record, number: int) -> bytes:
    body = b""
    first = ENTRIES_IN_TELEGRAM * (number - 1)
    newest = list(reversed(record.months))[first : first + ENTRIES_IN_TELEGRAM]
    for storage, entry in enumerate(newest, first + 2):
        extension = bytes([storage // 2])
        odd = 0x40 if storage % 2 else 0
        body += bytes([0x82 + odd]) + extension + b"\x6c" + type_g(entry.day)
        body += registers(config, entry, bytes([0x8C + odd]) + extension)
    return body


# The meter.


class LineFault(Exception):
    """A line that is refused; its text is the program's behind `line N: `."""


class Differs(Exception):
    """The program said something else than what has to come."""


ANSWER = re.compile(r"(ok|power) ([0-9]+) ([0-9]+) (-?[0-9]+) ([0-9]+)")


@dataclass
class Cut:
    """The store or sync to come, counted from 1, in which the power is to fail."""

    calls: int
    keep: int
    fill: int


class Meter:
    """The meter of `run` over a memory, or that of `dry` without one."""

    def __init__(self, memory: Optional[bytes]):
        if memory is None:
            self.config, self.record = Config(), Record(Config().opening_day)
            self.memory = None
        else:
            self.config, self.record = recover(memory)
            self.memory = bytearray(memory)
        # The slot that isn't in force and whose energy and bound nothing tells, as the event was lost.
        self.untold = None
        self.cut = None
        self.start()

    def start(self):
        self.head, self.slave = Head(), Slave()

    def line(self, line: bytes, said: Optional[str]):
        """Takes a line that was answered by `said` (None: by nothing). Raises `LineFault` where it is to be refused
        and `Differs` where it is to be answered by something else."""
        if len(line) > MOST_LINE:
            raise LineFault("too long")
        try:
            name, *values = read_line(line)
        except WordFault as fault:
            raise LineFault(str(fault)) from None
        if self.memory is None and name not in EVENTS:
            raise LineFault("not in dry")
        if name in EVENTS:
            self.check_event(name, values)
        if said is None:
            raise Differs("it is not answered")
        if name in EVENTS:
            self.event(name, values, said)
        else:
            self.want(said, self.other(name, values))

    @staticmethod
    def want(said: str, wanted: str):
        if said != wanted:
            raise Differs(f"it is answered by `{said}` in place of `{wanted}`")

    def check_event(self, name: str, values: list):
        record = self.record
        if record.seq >= MOST_EVENTS:
            raise LineFault(f"events {record.seq}")
        if name == "date" and values[0] < record.day:
            raise LineFault(f"date before {day_text(record.day)}")
        if name == "pulse" and record.pulses + values[0] > MOST_PULSES:
            raise LineFault(f"pulses {record.pulses + values[0]}")

    def other(self, name: str, values: list) -> str:
        if name == "cut":
            self.cut = Cut(*values)
            return "armed"
        if name == "power":
            self.start()
            return self.numbers("power")
        reply = (self.head if name == "opt" else self.slave).hear(values[0], self.config, self.record)
        return f"{name} {self.record.seq} {'-' if reply is None else reply.hex()}"

    def numbers(self, word: str) -> str:
        return f"{word} {self.record.seq} {register_text(self.config, self.record)}"

    def event(self, name: str, values: list, said: str):
        before = self.record
        found = ANSWER.fullmatch(said)
        if not found:
            raise Differs(f"it is answered by `{said}`")
        failed, kept = self.power_fails()
        if kept:
            self.record = self.applied(name, values, int(found[4]), int(found[5]))
        if self.memory is not None:
            self.store(self.record if kept else self.next_untold(name, values), failed)
        if failed:
            self.start()
        self.want(said, self.numbers("power" if failed else "ok"))
        if kept and name == "pulse":
            added = self.record.energy - before.energy, self.record.bound - before.bound
            if not fits(self.config, before, values[0], *added):
                raise Differs(f"its energy and bound rise by {added[0]} and {added[1]}")

    def applied(self, name: str, values: list, energy: int, bound: int) -> Record:
        """The record after the event; a pulse line has this energy and this bound then."""
        record = replace(self.record, seq=self.record.seq + 1)
        if name == "sample":
            return replace(record, samples=tuple(values))
        if name == "date":
            return record.moved_to(values[0], self.config.set_month)
        faulty = record.faulty + (values[0] if are_faulty(self.config, record.samples) else 0)
        return replace(record, pulses=record.pulses + values[0], faulty=faulty, energy=energy, bound=bound)

    def next_untold(self, name: str, values: list) -> Record:
        return self.applied(name, values, self.record.energy, self.record.bound)

    # An event stores its record in the slot that isn't in force, syncs, stores the gate, and syncs.
    CALLS = 4

    def power_fails(self) -> Tuple[Optional[Tuple[int, int, int]], bool]:
        """The call of this event, from 1, in which the power fails, with KEEP and FILL; and whether it is kept."""
        if self.cut is None:
            return None, True
        if self.cut.calls > self.CALLS:
            self.cut.calls -= self.CALLS
            return None, True
        failed = (self.cut.calls, self.cut.keep, self.cut.fill)
        self.cut = None
        other = 1 - slot_in_force(self.memory)
        return failed, failed[0] > 2 and (failed[1] >= 1 or failed[2] % 2 == other)

    def store(self, record: Record, failed):
        """Stores a record as an event does, or up to the call in which the power fails."""
        other = 1 - slot_in_force(self.memory)
        slot = SLOTS[other]
        octets = record.octets()
        self.untold = slot if record.pulses != self.record.pulses else None
        if failed and failed[0] <= 2:
            _, keep, fill = failed
            self.memory[slot : slot + SLOT_BYTES] = octets[:keep].ljust(SLOT_BYTES, bytes([fill]))
            return
        self.memory[slot : slot + SLOT_BYTES] = octets
        self.memory[GATE] = failed[2] if failed and failed[1] == 0 else other

    def is_memory(self, octets: bytes) -> bool:
        """Whether these bytes are what the memory has to hold."""
        if self.untold is None:
            return bytes(self.memory) == octets
        told, found = bytearray(self.memory), bytearray(octets)
        for image in (told, found):
            image[self.untold + 40 : self.untold + 72] = bytes(32)
        return told == found
