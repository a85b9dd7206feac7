"""What the tools share: the launcher and its runs, the line at the end, quiet pipes, the lines of `show`.

Standard library alone, Python 3.9 or later. Energies and bounds are whole millijoules, volumes whole litres.
"""

import argparse
import os
import pathlib
import re
import shutil
import signal
import subprocess
import sys
import tempfile
from dataclasses import dataclass
from datetime import date, timedelta
from fractions import Fraction
from typing import Callable, List, NoReturn, Optional, Sequence, Tuple, Union

import platinum

MEMORY = "register.bin"
MEMORY_BYTES = 16384
FIRST_DAY = date(2000, 1, 1)
HERE = pathlib.Path(os.path.realpath(__file__)).parent
ENDING_SIGNALS = (signal.SIGINT, signal.SIGTERM, signal.SIGHUP)

# Each line of the launcher's own on standard error begins so.
LAUNCHER_MARK = "heat-meter: "

MILLIJOULES_A_KWH = 3_600_000_000
BAD_CALIBRATION = 3  # the program's status of a faulty configuration


# Ends and streams.


def tell(line: str) -> None:
    """A line on standard error; where that is closed or full the line is lost, and all else goes on."""
    try:
        if sys.stderr is not None:
            sys.stderr.write(f"{line}\n")
            sys.stderr.flush()
    except OSError:
        pass


def say(tool: str, text: str) -> None:
    tell(f"{tool}: {text}")


def stop(tool: str, text: str, status: int = 1) -> NoReturn:
    say(tool, text)
    raise SystemExit(status)


def quiet_pipes() -> None:
    """A reader that goes away, as `| head -n 1`, ends the tool without a word."""
    signal.signal(signal.SIGPIPE, signal.SIG_DFL)


def end_at_signals() -> None:
    """Lets a signal end the tool in order, so that its temporary folders are removed. What is ignored stays so."""
    for number in ENDING_SIGNALS:
        if signal.getsignal(number) != signal.SIG_IGN:
            signal.signal(number, lambda got, _: sys.exit(128 + got))


def fill_streams() -> None:
    """Puts something into the place of each closed stream, so that no file of the tool gets its number.

    It can't be written where standard output was: a program that is started gets it as one that fails.
    """
    for number in range(3):
        try:
            os.fstat(number)
        except OSError:
            os.open(os.devnull, os.O_RDWR if number == 2 else os.O_RDONLY)


def run_tool(tool: str, main: Callable[[List[str]], int]) -> NoReturn:
    """Ends the process with the status of `main`, which takes the words behind the tool's name.

    No failing stream or file ends it with a traceback: what `main` did not explain is one line.
    """
    fill_streams()
    quiet_pipes()
    end_at_signals()
    if sys.stderr is None:
        sys.stderr = open(os.devnull, "w")
    try:
        status = main(sys.argv[1:])
    except OSError as error:
        say(tool, reason(error))
        status = 1
    except MemoryError:
        say(tool, "out of memory")
        status = 1
    except SystemExit as end:
        status = end.code
    try:
        if sys.stdout is not None:
            sys.stdout.flush()
    except OSError as error:
        say(tool, f"standard output: {reason(error)}")
        # What could not be written would be tried again at the end of the process.
        os.dup2(os.open(os.devnull, os.O_WRONLY), 1)
        status = 1
    sys.exit(status)


def reason(error: OSError) -> str:
    what = error.strerror or str(error)
    return what if error.filename is None else f"{os.fsdecode(error.filename)}: {what}"


def put(tool: str, text: str) -> None:
    """Writes a text to standard output, to its last byte, or ends with a line that says why not."""
    if sys.stdout is None:
        stop(tool, "standard output is closed")
    left = memoryview(text.encode())
    try:
        while left:
            left = left[os.write(1, left):]
    except OSError as error:
        stop(tool, f"standard output: {reason(error)}")


def write_file(tool: str, name: str, data: bytes) -> None:
    """Writes a file whole, or leaves what was there as it was; `-` is standard output."""
    if name == "-":
        put(tool, data.decode())
        return
    # A device, or a link to one, is written as it is.
    special = os.path.exists(name) and not os.path.isfile(name)
    part = name if special else f"{name}.{os.getpid()}.part"
    try:
        try:
            with open(part, "wb") as file:
                file.write(data)
            if not special:
                os.replace(part, os.path.realpath(name))
        except BaseException:
            if not special and os.path.exists(part):
                os.unlink(part)
            raise
    except (OSError, ValueError) as error:
        stop(tool, f"cannot write {name}: {why(error)}")


def why(error: Exception) -> str:
    """The reason of an error whose file the line names already."""
    return getattr(error, "strerror", None) or str(error)


# Words.


class _Help(argparse.Action):
    """Help that says so where it can't be written; argparse's own is silent then."""

    def __call__(self, parser, *_):
        put(parser.prog, parser.format_help())
        parser.exit()


def parser(tool: str, text: str) -> argparse.ArgumentParser:
    """A parser of the tool's words, whose help begins with this text. Wrong words end the tool with 2."""
    words = argparse.ArgumentParser(
        prog=tool,
        description=text,
        formatter_class=argparse.RawDescriptionHelpFormatter,
        allow_abbrev=False,
        add_help=False,
    )
    words.add_argument("-h", "--help", action=_Help, nargs=0, help="show this text")
    return words


# Numbers.


def decimal_text(value: Union[int, Fraction], places: int, rounded: Callable[[Fraction], int] = round) -> str:
    """The value with this many decimals, rounded half to even, or by `math.floor` or `math.ceil`, as a bound has to be."""
    whole = rounded(Fraction(value) * 10**places)
    digits = str(abs(whole)).rjust(places + 1, "0")
    text = f"{digits[:-places]}.{digits[-places:]}" if places else digits
    return f"-{text}" if whole < 0 else text


def calculator_limit(least: Union[int, Fraction], difference: Fraction) -> Fraction:
    """EN 1434-1's limit of the error of a calculator, in percent, at a difference of temperatures and its least one."""
    return Fraction(1, 2) + Fraction(least) / difference


# Sensors.


def calibration(tool: str, path: str) -> platinum.Pair:
    """The calibrated sensors of a configuration or a certificate; without them the tool ends with a status of its own."""
    try:
        return platinum.read_pair(path)
    except platinum.Misfit as error:
        stop(tool, f"{path}: {error}", BAD_CALIBRATION)
    except (OSError, ValueError) as error:
        stop(tool, f"cannot read {path}: {why(error)}", BAD_CALIBRATION)


# The program.


def launcher() -> str:
    """The launcher: that of the repository, else the one installed, else the one on PATH."""
    for place in (HERE.parent / "heat-meter", HERE.parent.parent.parent / "bin" / "heat-meter"):
        if place.is_file() and os.access(place, os.X_OK):
            return str(place)
    found = shutil.which("heat-meter")
    if found is None:
        stop(_tool(), f"there is no heat-meter beside {HERE}, and none on PATH")
    return os.path.abspath(found)


def run(
    words: Sequence[str], input: Optional[bytes] = None, cwd: Union[str, os.PathLike, None] = None
) -> "subprocess.CompletedProcess[bytes]":
    """Runs the program on these words in the folder `cwd`; without an input, standard input is empty.

    The input goes through a file: the program may end before it has read all, and no pipe breaks then.
    """
    command = [launcher(), *words]
    try:
        with tempfile.TemporaryFile() as source:
            source.write(input or b"")
            source.seek(0)
            return subprocess.run(command, stdin=source, stdout=subprocess.PIPE, stderr=subprocess.PIPE, cwd=cwd)
    except OSError as error:
        stop(_tool(), f"cannot run {command[0]}: {reason(error)}")


def run_or_stop(
    words: Sequence[str], input: Optional[bytes] = None, cwd: Union[str, os.PathLike, None] = None
) -> bytes:
    """What the program puts; where its status is not 0, passes on its own line, and stops."""
    ended = run(words, input, cwd)
    if ended.returncode != 0:
        say("heat-meter", own_line(ended.stderr))
        stop(_tool(), f"`heat-meter {' '.join(words)}` ended with status {ended.returncode}")
    return ended.stdout


def own_line(told: bytes) -> str:
    """What the program itself told on standard error; where it told nothing, the launcher's first line."""
    lines = told.decode(errors="backslashreplace").splitlines()
    own = [line for line in lines if not is_launcher_line(line)]
    return own[0] if own else lines[0][len(LAUNCHER_MARK) :] if lines else ""


def is_launcher_line(line: str) -> bool:
    """Whether the launcher told this, and not the program."""
    return line.startswith(LAUNCHER_MARK)


def _tool() -> str:
    return os.path.basename(sys.argv[0]) or "tool"


# A meter's memory.


@dataclass(frozen=True)
class Entry:
    """A register and the day on which it was entered."""

    day: date
    litres: int
    energy: int  # mJ, may be below 0
    bound: int  # mJ


@dataclass(frozen=True)
class Shown:
    """The lines of `show`; `volume` and `energy` are the texts of the display, in m3 and kWh."""

    serial: str
    day: date
    seq: int
    volume: str
    energy: str
    register: Entry
    faulty: int
    set_day: Optional[Entry]
    months: Tuple[Entry, ...]


@dataclass(frozen=True)
class Header:
    """What the memory's header says and `show` does not."""

    pair: platinum.Pair
    litres_per_pulse: int
    opening_day: date


_SHOWN = re.compile(
    r"serial (?P<serial>[0-9]{8})\nday (?P<day>[-0-9]{10})\nseq (?P<seq>[0-9]+)\n"
    r"volume (?P<volume>[.0-9]+) m3\nenergy (?P<energy>[.0-9]+) kWh\n"
    r"register (?P<register>[-0-9 ]+)\nfaulty (?P<faulty>[0-9]+)\nset (?P<set>[-0-9 ]+)\n"
    r"(?P<months>(?:month [-0-9 ]+\n)*)"
)


def _entry(day: str, numbers: str) -> Entry:
    litres, energy, bound = (int(number) for number in numbers.split(" "))
    return Entry(date.fromisoformat(day), litres, energy, bound)


def read_show(text: str) -> Shown:
    """The lines of `show`; a ValueError where the text is none."""
    found = _SHOWN.fullmatch(text)
    if not found:
        raise ValueError("these are no lines of show")
    return Shown(
        serial=found["serial"],
        day=date.fromisoformat(found["day"]),
        seq=int(found["seq"]),
        volume=found["volume"],
        energy=found["energy"],
        register=_entry(found["day"], found["register"]),
        faulty=int(found["faulty"]),
        set_day=None if found["set"] == "-" else _entry(*found["set"].split(" ", 1)),
        months=tuple(_entry(*line.split(" ", 2)[1:]) for line in found["months"].splitlines()),
    )


def show(cwd: Union[str, os.PathLike]) -> Shown:
    """What the memory in this folder holds; stops with a line where there is none that can be shown."""
    # The program would make a missing memory, of zeros.
    memory = pathlib.Path(cwd) / MEMORY
    try:
        os.lstat(memory)
    except FileNotFoundError:
        stop(_tool(), f"there is no {memory}; `heat-meter init` makes a memory in the current folder")
    except (OSError, ValueError) as error:
        stop(_tool(), f"cannot read {memory}: {why(error)}")
    shown = try_show(cwd)
    if shown is None:
        stop(_tool(), f"the memory {memory} can't be shown")
    return shown


def try_show(cwd: Union[str, os.PathLike]) -> Optional[Shown]:
    """What the memory in this folder holds; none, and what the program told, where it can't be shown."""
    ended = run(["show"], cwd=cwd)
    if ended.returncode != 0:
        say("heat-meter", own_line(ended.stderr))
        return None
    try:
        return read_show(ended.stdout.decode())
    except ValueError as error:
        stop(_tool(), f"`heat-meter show`: {error}")


def header(cwd: Union[str, os.PathLike]) -> Header:
    """The header of a memory that `show` or `init` has found in order (docs/FORMATS.md, *Memory*)."""
    memory = pathlib.Path(cwd) / MEMORY
    try:
        with open(memory, "rb") as file:
            front = file.read(50)
    except OSError as error:
        stop(_tool(), f"cannot read {memory}: {why(error)}")
    if len(front) != 50:
        stop(_tool(), f"{memory} has no header")

    def number(at, count):
        return int.from_bytes(front[at : at + count], "little")

    def element(at):
        return platinum.Element(number(at, 4), number(at + 4, 4), number(at + 8, 2))

    sensor = number(14, 2)
    pair = platinum.Pair(sensor, element(28), element(40)) if front[24] else platinum.nominal_pair(sensor)
    return Header(pair, number(16, 2), FIRST_DAY + timedelta(days=number(22, 2)))
