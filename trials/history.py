"""What happens in a trial, in one order: a list of events, of the desk, of the centre and of whoever pulls the plug."""

from typing import NamedTuple


class Started(NamedTuple):
    """The desk was started."""
    point: str


class Command(NamedTuple):
    """A command was given to the desk."""
    text: str


class Line(NamedTuple):
    """The desk wrote a line on its standard output."""
    text: str


class Error(NamedTuple):
    """The desk wrote a line on its standard error."""
    text: str


class Killed(NamedTuple):
    """The desk was ended by SIGKILL; how is "random" or the name of a point."""
    how: str


class Ended(NamedTuple):
    """The desk ended by itself."""
    status: int
    words: str


class Stored(NamedTuple):
    """What stands in the files of the store after a life of the desk."""
    data: bytes


class Received(NamedTuple):
    """A message of the desk reached the centre."""
    message: dict


class Noise(NamedTuple):
    """Bytes of the desk that are no packet or no message."""
    words: str


class Unread(NamedTuple):
    """The centre closed a connection without reading it: what the desk sent there is lost."""


class Answered(NamedTuple):
    """An answer left the centre."""
    answer: dict
    mac_is_good: bool
    manner: str


class Held(NamedTuple):
    """The centre's ledger took a request as approved, for this amount in fen."""
    trace: str
    amount: int


class Released(NamedTuple):
    """The centre's ledger took a reversal: the request counts no longer."""
    trace: str


def masked(card):
    """A card number: first six digits, stars, last four."""
    return card[:6] + "*" * (len(card) - 10) + card[-4:]


def shown(event):
    """An event as a line of text, card numbers masked, a chip's data and keys left out."""
    name = type(event).__name__.lower()
    parts = [_shown(part) for part in event]
    return " ".join([name, *parts])


def _shown(part):
    if isinstance(part, dict):
        return " ".join(f"{number}={_shown_field(number, value)}" for number, value in sorted(part.items()))
    if isinstance(part, bytes):
        return f"({len(part)} bytes)"
    words = str(part).split(" ")
    if "chip" in words[:-1]:
        place = words.index("chip") + 1
        words[place] = f"({len(words[place])} characters)" if len(words[place]) > 20 else words[place]
    return " ".join(masked(word) if word.isdecimal() and 13 <= len(word) <= 19 else word for word in words)


def _shown_field(number, value):
    if number == 2:
        return masked(value)
    if number in (55, 62):
        return f"({len(value)} bytes)"
    return value.hex() if isinstance(value, bytes) else value
