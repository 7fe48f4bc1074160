"""Messages of documents 01 and 02 as bytes and as {number: value}, and how they stand on the line.

A message is a dict: key 0 is its type, every other key the number of a field. Digits and printable text are str, other contents bytes.
"""

from typing import NamedTuple, Sequence

REQUEST_TPDU = bytes.fromhex("6000030000")
ANSWER_TPDU = bytes.fromhex("6000000003")
HEADER = bytes.fromhex("603200320001")
LONGEST_PACKET = 2048
SHORTEST_PACKET = len(REQUEST_TPDU) + len(HEADER)

TYPES = ("0100", "0110", "0200", "0210", "0220", "0230", "0320", "0330", "0400", "0410", "0500", "0510", "0800", "0810")
KEY_LENGTHS = (24, 40, 56, 60, 84)      # of field 62


class MessageError(Exception):
    """Bytes that are no message, or a message that cannot be written."""


class Field(NamedTuple):
    form: str           # "digits", "text" (20 to 7E) or "bytes"
    sizes: Sequence     # how many digits or bytes it may have
    prefix: int         # bytes of the length that stands before it; 0 where none does


def _fixed(form, size):
    return Field(form, (size,), 0)


FIELDS = {
    2: Field("digits", range(13, 20), 1), 3: _fixed("digits", 6), 4: _fixed("digits", 12), 11: _fixed("digits", 6),
    12: _fixed("digits", 6), 13: _fixed("digits", 4), 14: _fixed("digits", 4), 15: _fixed("digits", 4),
    22: _fixed("digits", 3), 25: _fixed("digits", 2), 32: Field("digits", range(1, 12), 1), 37: _fixed("text", 12),
    38: _fixed("text", 6), 39: _fixed("text", 2), 41: _fixed("text", 8), 42: _fixed("text", 15),
    44: Field("bytes", range(26), 1), 48: Field("digits", (62,), 2), 49: _fixed("text", 3), 54: Field("text", (20,), 2),
    55: Field("bytes", range(1, 256), 2), 60: Field("digits", (11, 14), 2), 61: Field("digits", (16,), 2), 62: Field("bytes", range(10000), 2),
    63: Field("bytes", range(3, 64), 2), 64: _fixed("bytes", 8),
}


def read(data):
    """The message that bytes are; MessageError where they are none."""
    if len(data) < 10:
        raise MessageError("under 10 bytes")
    message = {0: data[:2].hex()}
    if message[0] not in TYPES:
        raise MessageError(f"type {message[0]} is not listed")
    bitmap = int.from_bytes(data[2:10], "big")
    numbers = [number for number in range(1, 65) if bitmap >> (64 - number) & 1]
    for number in numbers:
        if number not in FIELDS:
            raise MessageError(f"field {number} is not listed")
    place = 10
    for number in numbers:
        message[number], place = _read_field(data, place, number)
    if place != len(data):
        raise MessageError(f"{len(data) - place} bytes follow the last field")
    if 55 in message and chip_fault(message[55]):
        raise MessageError(f"field 55: {chip_fault(message[55])}")
    if len(message.get(62, bytes(24))) not in KEY_LENGTHS:
        raise MessageError(f"field 62 is {len(message[62])} long")
    return message


def chip_fault(data):
    """What is wrong with the elements of a field 55 (rule 23); "" where nothing is."""
    rest, tags = bytes(data), []
    while rest:
        tag = rest[:2] if rest[0] % 32 == 31 else rest[:1]
        length, value = _length_of_value(rest[len(tag):])
        if length is None or length > len(value):
            return "it ends inside an element, or a length is not allowed"
        tags.append(tag)
        rest = value[length:]
    return "a tag stands twice" if len(set(tags)) < len(tags) else ""


def element(tag, value):
    """An element of field 55: a tag in hexadecimal, length and value."""
    return bytes.fromhex(tag) + (b"\x81" if len(value) > 127 else b"") + bytes([len(value)]) + value


def write(message):
    """The bytes of a message. The elements of field 55 and the length of field 62 are not looked at."""
    numbers = sorted(number for number in message if number)
    bitmap = sum(1 << (64 - number) for number in numbers)
    if message[0] not in TYPES:
        raise MessageError(f"type {message[0]} is not listed")
    return bytes.fromhex(message[0]) + bitmap.to_bytes(8, "big") + b"".join(_written(number, message[number]) for number in numbers)


def mac(data):
    """Field 64 of a message whose last eight bytes are its place."""
    body = data[:-8]
    body += bytes(-len(body) % 8)
    folded = bytearray(8)
    for place, byte in enumerate(body):
        folded[place % 8] ^= byte
    mixed = bytes(byte ^ (0xA5 + place & 0xFF) for place, byte in enumerate(folded))
    return mixed[1:] + mixed[:1]


def sealed(message):
    """The bytes of a message, field 64 computed."""
    data = write({**message, 64: bytes(8)})
    return data[:-8] + mac(data)


def packet(tpdu, data):
    """Message bytes as they stand on the line: length, TPDU, header, message."""
    content = tpdu + HEADER + data
    return len(content).to_bytes(2, "big") + content


def first_packet(buffer):
    """(content, rest) of a buffer that begins with a whole packet, else (None, buffer); MessageError at a length that is not allowed."""
    if len(buffer) < 2:
        return None, buffer
    length = int.from_bytes(buffer[:2], "big")
    if not SHORTEST_PACKET <= length <= LONGEST_PACKET:
        raise MessageError(f"a packet of {length} bytes")
    if len(buffer) < 2 + length:
        return None, buffer
    return buffer[2:2 + length], buffer[2 + length:]


def kind_of(message):
    """60.1 of a message."""
    return message[60][:2]


def batch_of(message):
    """60.2 of a message."""
    return message[60][2:8]


def code_of(message):
    """60.3 of a message."""
    return message[60][8:11]


def part_code_of(message):
    """60.4 to 60.6 of a message, "" where it has none; 001 asks for approval in part."""
    return message[60][11:]


def _length_of_value(data):
    """(length, bytes after it) of what stands after a tag: 00 to 7F, or 81 and 80 to FF; None for any other length."""
    if data[:1] == b"\x81":
        return (data[1], data[2:]) if data[1:2] >= b"\x80" else (None, b"")
    return (data[0], data[1:]) if data and data[0] <= 0x7F else (None, b"")


def _read_field(data, place, number):
    field = FIELDS[number]
    size = field.sizes[0]
    if field.prefix:
        digits = _cut(data, place, field.prefix, number).hex()
        if not digits.isdecimal():
            raise MessageError(f"the length of field {number} is no number")
        size = int(digits)
        if size not in field.sizes:
            raise MessageError(f"field {number} is {size} long")
        place += field.prefix
    width = (size + 1) // 2 if field.form == "digits" else size
    return _value(_cut(data, place, width, number), size, number), place + width


def _cut(data, place, width, number):
    if place + width > len(data):
        raise MessageError(f"the message ends before field {number} does")
    return data[place:place + width]


def _value(raw, size, number):
    form = FIELDS[number].form
    if form == "bytes":
        return bytes(raw)
    if form == "text":
        if not all(0x20 <= byte <= 0x7E for byte in raw):
            raise MessageError(f"field {number} is not printable")
        return raw.decode("ascii")
    digits = raw.hex()
    if not digits.isdecimal() and digits or digits[size:].strip("0"):
        raise MessageError(f"field {number} holds what is no digit")
    return digits[:size]


def _written(number, value):
    field = FIELDS[number]
    if len(value) not in field.sizes:
        raise MessageError(f"field {number} is {len(value)} long")
    length = bytes.fromhex(str(len(value)).zfill(2 * field.prefix)) if field.prefix else b""
    if field.form == "bytes":
        return length + value
    if field.form == "text":
        return length + value.encode("ascii")
    return length + bytes.fromhex(value + "0" * (len(value) % 2))
