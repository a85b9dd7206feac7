"""A decoder of readouts: bytes on the M-Bus and at the optical head, to what they say.

It is written from the rules of the standards, apart from the program: frames after
EN 13757-2, telegrams after EN 13757-3 (variable data structure, CI 72), messages of the
optical head after IEC 62056-21. It knows the records of the standard's primary table,
not those that this meter happens to write. What it can't read is an `Unreadable`, which
says what and at which byte, from 0.
"""

import datetime
import re
import struct
from dataclasses import dataclass, field
from decimal import Decimal
from typing import List, Optional, Tuple, Union


class Unreadable(ValueError):
    """Bytes that break a rule, or are beyond what is decoded here."""

    def __init__(self, at: int, what: str):
        super().__init__(f"byte {at}: {what}")
        self.at = at


# Link layer, EN 13757-2.


@dataclass(frozen=True)
class Frame:
    """A frame: `single` (E5), `short` (10 .. 16) or `long` (68 .. 16)."""

    kind: str
    control: Optional[int] = None
    address: Optional[int] = None
    information: Optional[int] = None
    data: bytes = b""
    data_at: int = 0


def read_frame(octets: bytes) -> Frame:
    """The one frame that these bytes are, to the last byte."""
    if not octets:
        raise Unreadable(0, "no frame: there are no bytes")
    if octets == b"\xe5":
        return Frame("single")
    if octets[0] == 0x10:
        if len(octets) != 5:
            raise Unreadable(0, f"a short frame has 5 bytes, not {len(octets)}")
        _check_tail(octets, 1)
        return Frame("short", octets[1], octets[2])
    if octets[0] == 0x68:
        return _read_long(octets)
    raise Unreadable(0, f"no frame begins with {octets[0]:02x}")


def _read_long(octets: bytes) -> Frame:
    if len(octets) < 9:
        raise Unreadable(0, f"a long frame has at least 9 bytes, not {len(octets)}")
    length = octets[1]
    if octets[2] != length:
        raise Unreadable(2, f"the second length is {octets[2]}, the first is {length}")
    if octets[3] != 0x68:
        raise Unreadable(3, f"the second start is {octets[3]:02x}, not 68")
    if length + 6 != len(octets):
        raise Unreadable(1, f"the length {length} is that of {length + 6} bytes, and there are {len(octets)}")
    _check_tail(octets, 4)
    return Frame("long", octets[4], octets[5], octets[6], octets[7:-2], 7)


def _check_tail(octets: bytes, first: int) -> None:
    """The check sum from byte `first` on, and the stop byte."""
    total = sum(octets[first:-2]) % 256
    if octets[-2] != total:
        raise Unreadable(len(octets) - 2, f"the check sum is {octets[-2]:02x}, and that of the bytes is {total:02x}")
    if octets[-1] != 0x16:
        raise Unreadable(len(octets) - 1, f"the stop byte is {octets[-1]:02x}, not 16")


# Application layer, EN 13757-3.

MEDIA = {
    0x00: "other",
    0x01: "oil",
    0x02: "electricity",
    0x03: "gas",
    0x04: "heat, volume in the return",
    0x05: "steam",
    0x06: "warm water",
    0x07: "water",
    0x08: "heat cost allocator",
    0x09: "compressed air",
    0x0A: "cooling, volume in the return",
    0x0B: "cooling, volume in the flow",
    0x0C: "heat, volume in the flow",
    0x0D: "heat and cooling",
    0x0E: "bus component",
    0x0F: "unknown",
    0x15: "hot water",
    0x16: "cold water",
    0x17: "hot and cold water",
    0x18: "pressure",
}

FUNCTIONS = ("instantaneous", "maximum", "minimum", "during an error")

# Value information: the first code, how many there are, the quantity, its unit, and the power of ten of the first.
SCALED = (
    (0x00, 8, "energy", "Wh", -3),
    (0x08, 8, "energy", "J", 0),
    (0x10, 8, "volume", "m3", -6),
    (0x18, 8, "mass", "kg", -3),
    (0x28, 8, "power", "W", -3),
    (0x30, 8, "power", "J/h", 0),
    (0x38, 8, "volume flow", "m3/h", -6),
    (0x40, 8, "volume flow", "m3/min", -7),
    (0x48, 8, "volume flow", "m3/s", -9),
    (0x50, 8, "mass flow", "kg/h", -3),
    (0x58, 4, "flow temperature", "°C", -3),
    (0x5C, 4, "return temperature", "°C", -3),
    (0x60, 4, "temperature difference", "K", -3),
    (0x64, 4, "external temperature", "°C", -3),
    (0x68, 4, "pressure", "bar", -3),
)

# The lowest two bits choose the unit.
TIMED = {0x20: "on time", 0x24: "operating time", 0x70: "averaging duration", 0x74: "actuality duration"}
TIME_UNITS = ("s", "min", "h", "d")

PLAIN = {0x6E: "heat cost allocator units", 0x78: "fabrication number", 0x79: "identification", 0x7A: "bus address"}

DATE, DATE_AND_TIME = 0x6C, 0x6D

# Data fields: bytes of a binary number, and of decimal digits.
BINARY = {0x1: 1, 0x2: 2, 0x3: 3, 0x4: 4, 0x6: 6, 0x7: 8}
DECIMAL = {0x9: 1, 0xA: 2, 0xB: 3, 0xC: 4, 0xE: 6}
NO_DATA, REAL, VARIABLE, SPECIAL = 0x0, 0x5, 0xD, 0xF

# The standard's limits of a chain of extensions.
MOST_EXTENSIONS = 10

Value = Union[None, Decimal, str, datetime.date, datetime.datetime]


@dataclass(frozen=True)
class Record:
    """A data record. Its number is in units of ten to the `exponent` of the `unit`; `value` has both."""

    at: int
    quantity: str
    function: str
    storage: int
    tariff: int
    subunit: int
    value: Value
    unit: str = ""
    exponent: int = 0
    digits: str = ""  # as they stand in the telegram, where it is a decimal field


@dataclass(frozen=True)
class Telegram:
    """A meter's answer to a request for its data."""

    address: int
    serial: str
    maker: str
    version: int
    medium: int
    access: int
    status: int
    signature: int
    records: Tuple[Record, ...]
    more: bool
    manufacturer_data: bytes


@dataclass
class _Source:
    """The bytes of a frame's data that are not yet read."""

    octets: bytes
    at: int  # of the next byte, in the frame
    read: int = field(default=0)

    def left(self) -> int:
        return len(self.octets) - self.read

    def take(self, count: int, what: str) -> bytes:
        if self.left() < count:
            raise Unreadable(self.at, f"{what} has {count} bytes, and {self.left()} are left")
        taken = self.octets[self.read : self.read + count]
        self.read += count
        self.at += count
        return taken

    def take_one(self, what: str) -> int:
        return self.take(1, what)[0]


def read_telegram(octets: bytes) -> Telegram:
    """The telegram of variable data that this frame carries."""
    frame = read_frame(octets)
    if frame.kind != "long":
        raise Unreadable(0, f"a {frame.kind} frame carries no telegram")
    # Bits 4 and 5 are the slave's flow control and access demand.
    if frame.control & 0xCF != 0x08:
        raise Unreadable(4, f"the control field {frame.control:02x} is not that of a slave's data")
    if frame.information != 0x72:
        raise Unreadable(6, f"the control information {frame.information:02x} is not 72")
    source = _Source(frame.data, frame.data_at)
    serial = _digits(source.take(4, "the identification number"), source.at - 4)
    maker = _maker(int.from_bytes(source.take(2, "the maker"), "little"), source.at - 2)
    version = source.take_one("the version")
    medium = source.take_one("the medium")
    access = source.take_one("the access number")
    status = source.take_one("the status")
    signature = int.from_bytes(source.take(2, "the signature"), "little")
    if signature:
        raise Unreadable(source.at - 2, f"the signature {signature:04x} is that of an encrypted telegram")
    records, more, rest = _read_records(source)
    return Telegram(frame.address, serial, maker, version, medium, access, status, signature, tuple(records), more, rest)


def _maker(code: int, at: int) -> str:
    """Three letters of five bits each, A as 1."""
    fives = [code >> shift & 31 for shift in (10, 5, 0)]
    if code >> 15 or not all(1 <= letter <= 26 for letter in fives):
        raise Unreadable(at, f"the maker {code:04x} is not three letters")
    return "".join(chr(64 + letter) for letter in fives)


def _digits(low_first: bytes, at: int) -> str:
    """Packed decimal digits, the lowest byte first."""
    digits = low_first[::-1].hex()
    if not digits.isdecimal():
        raise Unreadable(at, f"{digits or 'nothing'} is no decimal number")
    return digits


def _read_records(source: _Source) -> Tuple[List[Record], bool, bytes]:
    records = []
    while source.left():
        at = source.at
        information = source.take_one("a record")
        if information == 0x2F:  # a filler
            continue
        if information in (0x0F, 0x1F):
            return records, information == 0x1F, source.take(source.left(), "manufacturer data")
        if information & 0x0F == SPECIAL:
            raise Unreadable(at, f"the data information {information:02x} is unknown")
        records.append(_read_record(source, at, information))
    return records, False, b""


def _read_record(source: _Source, at: int, information: int) -> Record:
    storage, tariff, subunit = _read_data_extensions(source, information)
    code = _read_value_information(source)
    quantity, unit, exponent = _meaning(code, source.at - 1)
    value, digits = _read_value(source, code, information & 0x0F, exponent)
    function = FUNCTIONS[information >> 4 & 3]
    return Record(at, quantity, function, storage, tariff, subunit, value, unit, exponent, digits)


def _read_data_extensions(source: _Source, information: int) -> Tuple[int, int, int]:
    """Storage number, tariff and subunit: the lowest bit of the first stands in the data information itself."""
    storage, tariff, subunit = information >> 6 & 1, 0, 0
    goes_on, count = information & 0x80, 0
    while goes_on:
        if count == MOST_EXTENSIONS:
            raise Unreadable(source.at, f"more than {MOST_EXTENSIONS} extensions of the data information")
        extension = source.take_one("an extension of the data information")
        storage |= (extension & 0x0F) << (1 + 4 * count)
        tariff |= (extension >> 4 & 3) << (2 * count)
        subunit |= (extension >> 6 & 1) << count
        goes_on, count = extension & 0x80, count + 1
    return storage, tariff, subunit


def _read_value_information(source: _Source) -> int:
    code = source.take_one("the value information")
    if code & 0x80:
        raise Unreadable(source.at - 1, f"the value information {code:02x} has extensions, which are not decoded")
    return code


def _meaning(code: int, at: int) -> Tuple[str, str, int]:
    """Quantity, unit and power of ten of a value information."""
    for first, count, quantity, unit, least in SCALED:
        if first <= code < first + count:
            return quantity, unit, least + code - first
    if code & 0x7C in TIMED:
        return TIMED[code & 0x7C], TIME_UNITS[code & 3], 0
    if code in PLAIN:
        return PLAIN[code], "", 0
    if code == DATE:
        return "date", "", 0
    if code == DATE_AND_TIME:
        return "date and time", "", 0
    raise Unreadable(at, f"the value information {code:02x} is unknown")


def _read_value(source: _Source, code: int, data_field: int, exponent: int) -> Tuple[Value, str]:
    """The value, and its digits as they stand where it is a decimal field."""
    at = source.at
    if data_field == NO_DATA:
        return None, ""
    if code == DATE or code == DATE_AND_TIME:
        return _read_date(source, code, data_field), ""
    if data_field in BINARY:
        number = int.from_bytes(source.take(BINARY[data_field], "a binary number"), "little", signed=True)
        return _scaled(number, exponent), ""
    if data_field in DECIMAL:
        return _decimal_number(source.take(DECIMAL[data_field], "a decimal number"), at, exponent)
    if data_field == REAL:
        (real,) = struct.unpack("<f", source.take(4, "a real number"))
        return Decimal(real).scaleb(exponent), ""
    if data_field == VARIABLE:
        return _read_variable(source, exponent)
    raise Unreadable(at, f"the data field {data_field:x} is that of a request")


def _scaled(number: int, exponent: int) -> Decimal:
    """The number times a power of ten, exactly, however long it is."""
    return Decimal(f"{number}e{exponent}")


def _decimal_number(low_first: bytes, at: int, exponent: int) -> Tuple[Decimal, str]:
    """A digit F in the highest place is a minus sign."""
    negative = low_first[-1] >> 4 == 0xF
    if negative:
        digits = "-" + _digits(low_first[:-1] + bytes([low_first[-1] & 0x0F]), at)[1:]
    else:
        digits = _digits(low_first, at)
    return _scaled(int(digits), exponent), digits


def _read_variable(source: _Source, exponent: int) -> Tuple[Value, str]:
    at = source.at
    length = source.take_one("a length")
    if length <= 0xBF:
        return source.take(length, "a text")[::-1].decode("latin-1"), ""
    if 0xC0 <= length <= 0xC9 or 0xD0 <= length <= 0xD9:
        sign = "-" if length >= 0xD0 else ""
        digits = sign + _digits(source.take(length & 0x0F, "a decimal number"), at + 1)
        return _scaled(int(digits), exponent), digits
    if 0xE0 <= length <= 0xEF:
        number = int.from_bytes(source.take(length & 0x0F, "a binary number"), "little", signed=True)
        return _scaled(number, exponent), ""
    raise Unreadable(at, f"the length {length:02x} is unknown")


def _read_date(source: _Source, code: int, data_field: int) -> Union[datetime.date, datetime.datetime]:
    """A date of 16 bits (type G), or a date and time of 32 (type F); a year is one of 2000 to 2099."""
    at = source.at
    if (code, data_field) == (DATE, 0x2):
        bits = int.from_bytes(source.take(2, "a date"), "little")
        return _calendar_date(bits, bits & 0x1F, at)
    if (code, data_field) == (DATE_AND_TIME, 0x4):
        bits = int.from_bytes(source.take(4, "a date and time"), "little")
        minute, hour = bits & 0x3F, bits >> 8 & 0x1F
        if bits & 0x80 or minute > 59 or hour > 23:
            raise Unreadable(at, f"{bits:08x} is no valid time")
        return datetime.datetime.combine(_calendar_date(bits >> 16, bits >> 16 & 0x1F, at), datetime.time(hour, minute))
    raise Unreadable(at, f"a date of the data field {data_field:x} is not decoded")


def _calendar_date(bits: int, day: int, at: int) -> datetime.date:
    year, month = bits >> 5 & 7 | bits >> 9 & 0x78, bits >> 8 & 0x0F
    try:
        if year > 99:
            raise ValueError
        return datetime.date(2000 + year, month, day)
    except ValueError:
        raise Unreadable(at, f"year {year}, month {month}, day {day} is no date") from None


# Optical head, IEC 62056-21.

STX, ETX, ACK = 0x02, 0x03, 0x06
LINE_END = b"\r\n"


@dataclass(frozen=True)
class Identification:
    """A meter's answer to an opening message: `/`, three letters, a baud rate's sign, the identification."""

    maker: str
    baud: str
    text: str


@dataclass(frozen=True)
class DataSet:
    """A code, the number of an earlier value (`*NN`), and what stands in each pair of parentheses."""

    code: str
    earlier: Optional[int]
    values: Tuple[Tuple[str, str], ...]  # value and unit, which may be empty


def read_identification(octets: bytes) -> Identification:
    found = re.fullmatch(rb"/([A-Za-z]{3})([0-9A-Z])([\x20-\x7e]{0,16})\r\n", octets)
    if not found or set(found[3]) & set(b"/!"):
        raise Unreadable(0, "no identification message")
    return Identification(*(part.decode("ascii") for part in found.groups()))


def read_data_message(octets: bytes) -> Tuple[DataSet, ...]:
    """The data sets of a data message, whose check character is verified."""
    if not octets or octets[0] != STX:
        raise Unreadable(0, "a data message begins with 02")
    if len(octets) < 3 or octets[-2] != ETX:
        raise Unreadable(max(len(octets) - 2, 0), "the last but one byte of a data message is 03")
    check = 0
    for octet in octets[1:-1]:
        check ^= octet
    if octets[-1] != check:
        raise Unreadable(len(octets) - 1, f"the check character is {octets[-1]:02x}, and that of the bytes is {check:02x}")
    block = octets[1:-2]
    if not block.endswith(b"!" + LINE_END):
        raise Unreadable(len(octets) - 2, "a data block ends with ! CR LF")
    lines = block[:-3]
    if lines and not lines.endswith(LINE_END):
        raise Unreadable(1 + len(lines), "the line before ! has no CR LF")
    data_sets, at = [], 1
    for line in lines.split(LINE_END)[:-1]:
        data_sets.append(_read_data_set(line, at))
        at += len(line) + 2
    return tuple(data_sets)


# The lengths are those of the standard; none of the parts has a delimiter of the others.
_DATA_SET = re.compile(rb"([^()*/!]{1,16})(?:\*([0-9]{2}))?((?:\([^()*/!]{0,32}(?:\*[^()*/!]{1,16})?\))+)")
_VALUE = re.compile(rb"\(([^()*]*)(?:\*([^()*]*))?\)")


def _read_data_set(line: bytes, at: int) -> DataSet:
    if len(line) > 78:
        raise Unreadable(at, f"a data line has at most 78 characters, not {len(line)}")
    for place, octet in enumerate(line):
        if not 0x20 <= octet <= 0x7E:
            raise Unreadable(at + place, f"{octet:02x} is no printable character")
    found = _DATA_SET.fullmatch(line)
    if not found:
        raise Unreadable(at, f"no data set: {line.decode('ascii')}")
    values = tuple((value.decode("ascii"), unit.decode("ascii")) for value, unit in _VALUE.findall(found[3]))
    return DataSet(found[1].decode("ascii"), int(found[2]) if found[2] else None, values)
