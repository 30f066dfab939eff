"""Network files as scripts read and write them. None of this is the program's code, so that trials can compare the two."""
import re
import tomllib
from collections.abc import Iterable
from typing import Any

# a TOML table
Table = dict[str, Any]
DIVIDER = re.compile("^%%\n", re.MULTILINE)
# the octets of the shortest and the longest frame with one tag
SHORTEST, LONGEST = 64, 1522
# the time of an octet at each rate in Mb/s, in ticks of 40 ps; a nanosecond has 25
TICKS = {10: 20_000, 100: 2000, 1000: 200, 2500: 80, 5000: 40, 10_000: 20, 25_000: 8, 40_000: 5, 100_000: 2}


def rounded_up(number: int, by: int) -> int:
    """Returns a quotient, rounded up."""
    return -(-number // by)


def time_of(octets: int, rate: int) -> int:
    """Returns the time of some octets in whole nanoseconds, rounded up."""
    return rounded_up(octets * TICKS[rate], 25)


def slot_of(octets: int, rate: int) -> int:
    """Returns how long a frame takes with its preamble and the gap after it, in nanoseconds."""
    return time_of(octets + 20, rate)


def sending_of(octets: int, rate: int) -> int:
    """Returns how long a frame takes with its preamble, in nanoseconds."""
    return time_of(octets + 8, rate)


def parts_of(text: str) -> list[str]:
    """Returns the parts of an input, which lines `%%` divide."""
    return DIVIDER.split(text)


def network_of(text: str) -> Table:
    """Returns the domain and the streams of an input: two parts or one, which others may follow."""
    parts = parts_of(text)
    domain = tomllib.loads(parts[0])
    return domain if "streams" in domain or len(parts) == 1 else domain | tomllib.loads(parts[1])


def toml_of(value: object) -> str:
    """Returns a value in TOML."""
    if isinstance(value, bool):
        return "true" if value else "false"
    if isinstance(value, int):
        return str(value)
    if isinstance(value, str):
        return f'"{value}"'
    if isinstance(value, dict):
        return "{ " + ", ".join(f"{key} = {toml_of(it)}" for key, it in value.items()) + " }"
    return "[" + ", ".join(map(toml_of, value)) + "]"


def text_of(table: Table) -> str:
    """Returns a table as a text in TOML, a line for each key."""
    return "".join(f"{key} = {toml_of(value)}\n" for key, value in table.items())


def tables_of(name: str, tables: Iterable[Table]) -> str:
    """Returns an array of tables as a text in TOML."""
    return "".join(f"\n[[{name}]]\n{text_of(it)}" for it in tables)


def directions(link: Table) -> list[tuple[str, str]]:
    """Returns the directions of a link, each as its two ends: two if it is duplex, else one."""
    there = [(link["from"], link["to"])]
    return there + [(link["to"], link["from"])] if link.get("duplex") else there


def delays_of(link: Table) -> tuple[int, int]:
    """Returns the least and the greatest delay of a link."""
    delay = link["delay"]
    return (delay[0], delay[1]) if isinstance(delay, list) else (delay, delay)


def paths_of(stream: Table) -> list[list[str]] | None:
    """Returns the given paths of a stream, or None."""
    return [stream["path"]] if "path" in stream else stream.get("paths")
