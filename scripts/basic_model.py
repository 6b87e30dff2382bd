"""A plain model of BASIC V2 programs as text, written from the specification and not from the code."""
from text_form import UNITS, to_text

KEYWORDS = """end for next data input# input dim read let goto run if restore gosub return rem stop on wait load save verify def poke
print# print cont list clr cmd sys open close get new tab( to fn spc( then not step + - * / ^ and or > = < sgn int abs usr fre pos sqr rnd
log exp cos sin tan atn peek len str$ val asc chr$ left$ right$ mid$ go""".split()
assert len(KEYWORDS) == 76
WORDS = [bytes(UNITS[letter] for letter in word) for word in KEYWORDS]
QUOTE, COLON, QUESTION, PI = 0x22, 0x3A, 0x3F, 0xFF
DATA, REM, PRINT = (0x80 + KEYWORDS.index(word) for word in ("data", "rem", "print"))


class Fault(Exception):
    """A faulty line of a text, or a file that is no program."""

    def __init__(self, number, line=0):
        super().__init__(number, line)
        self.number, self.line = number, line


def read_text(text):
    """The bytes of a text; None if it has a fault."""
    data = bytearray()
    while text:
        length = text.find(b"}") + 1 if text[:1] == b"{" else 1
        if length == 0:
            return None
        try:
            unit = text[:length].decode("ascii")
        except UnicodeDecodeError:
            return None
        unit = unit.lower() if length > 1 else unit
        if unit not in UNITS:
            return None
        data.append(UNITS[unit])
        text = text[length:]
    return bytes(data)


def quoted_length(data):
    """How many bytes a quoted run has, from its quote on."""
    end = data.find(b'"', 1)
    return len(data) if end < 0 else end + 1


def data_length(data):
    """How many bytes are kept after the word `data`: up to and with the first colon outside quotes."""
    quotes = 0
    for place, byte in enumerate(data):
        if byte == QUOTE:
            quotes += 1
        elif byte == COLON and quotes % 2 == 0:
            return place + 1
    return len(data)


def crunched(data):
    """The crunched bytes of a line; None if a byte cannot be there."""
    codes = bytearray()
    while data:
        word = next((word for word in WORDS if data.startswith(word)), None)
        if data[0] == QUOTE:
            taken = quoted_length(data)
            codes += data[:taken]
        elif word:
            token = 0x80 + WORDS.index(word)
            taken = len(word)
            codes.append(token)
            kept = len(data) if token == REM else data_length(data[taken:]) if token == DATA else 0
            codes += data[taken:taken + kept]
            taken += kept
        elif data[0] == QUESTION:
            taken = 1
            codes.append(PRINT)
        elif data[0] == PI or data[0] < 0x80:
            taken = 1
            codes.append(data[0])
        else:
            return None
        data = data[taken:]
    return bytes(codes)


def listed(codes):
    """The text of a line's crunched bytes."""
    text = ""
    while codes:
        code = codes[0]
        taken = 1
        if code == QUOTE:
            taken = quoted_length(codes)
            text += to_text(codes[:taken])
        elif 0x80 <= code < 0x80 + len(WORDS):
            kept = len(codes) - 1 if code == REM else data_length(codes[1:]) if code == DATA else 0
            taken = 1 + kept
            text += KEYWORDS[code - 0x80] + to_text(codes[1:taken])
        else:
            text += to_text(codes[:1])
        codes = codes[taken:]
    return text


def text_lines(text):
    lines = text.split(b"\n")
    return lines if lines[-1] else lines[:-1], len(lines) - 1


def crunch(start, text):
    """The program file of a text."""
    lines, ended = text_lines(text)
    file, address = bytearray(start.to_bytes(2, "little")), start
    for place, line in enumerate(lines):
        if place < ended and line.endswith(b"\r"):
            line = line[:-1]
        rest = line.lstrip(b" ")
        if rest[:1] in (b"", b";"):
            continue
        number_of = place + 1
        count = 0
        while count < len(rest) and 0x30 <= rest[count] <= 0x39:
            count += 1
        if count == 0:
            raise Fault(1, number_of)
        number = int(rest[:count])
        if number > 65_535:
            raise Fault(2, number_of)
        rest = rest[count:]
        data = read_text(rest[1:] if rest[:1] == b" " else rest)
        if data is None:
            raise Fault(3, number_of)
        codes = crunched(data)
        if codes is None:
            raise Fault(4, number_of)
        if 0 in data:
            raise Fault(5, number_of)
        address += len(codes) + 5
        if len(codes) > 250 or address > 65_535:
            raise Fault(6, number_of)
        file += address.to_bytes(2, "little") + number.to_bytes(2, "little") + codes + b"\0"
    return bytes(file + b"\0\0")


def listing(file):
    """The text of a program file."""
    if len(file) < 2:
        raise Fault(1)
    text, rest = "", file[2:]
    while rest[:2] != b"\0\0":
        end = rest.find(b"\0", 4)
        if len(rest) < 4 or end < 0:
            raise Fault(2)
        text += f"{int.from_bytes(rest[2:4], 'little')} {listed(rest[4:end])}\n"
        rest = rest[end + 1:]
    return text


# The worked examples of the specification: a start address and a text, and the file or the fault that they give.
WORKED = (
    (0x0801, b'10 print"hello"', "01 08 0e 08 0a 00 99 22 48 45 4c 4c 4f 22 00 00 00"),
    (0x0801, b"10 data for:for", "01 08 0d 08 0a 00 83 20 46 4f 52 3a 81 00 00 00"),
    (0x0801, b"20 {clr}", (4, 1)),
    (0x0801, b"30 ?#1", "01 08 09 08 1e 00 99 23 31 00 00 00"),
    (0x0801, b"", "01 08 00 00"),
    (0xFFF2, b'10 print"hello"', "f2 ff ff ff 0a 00 99 22 48 45 4c 4c 4f 22 00 00 00"),
    (0xFFF3, b'10 print"hello"', (6, 1)),
    (0x0801, b"10 " + b"a" * 251, (6, 1)),
    (0x0801, b"65536 a", (2, 1)),
    (0x0801, b"a", (1, 1)),
    (0x0801, b"10 {$00}", (5, 1)),
    (0x0801, b"; x\n5 a\n", "01 08 07 08 05 00 41 00 00 00"),
    (0x0801, b"10 goto10", "01 08 09 08 0a 00 89 31 30 00 00 00"),
    (0x0801, b"10 print#1", "01 08 08 08 0a 00 98 31 00 00 00"),
    (0x0801, b"10 go to", "01 08 09 08 0a 00 cb 20 a4 00 00 00"),
)


def outcome(start, text):
    try:
        return crunch(start, text).hex(" ")
    except Fault as fault:
        return fault.number, fault.line


if __name__ == "__main__":
    differences = [(start, text) for start, text, wanted in WORKED if outcome(start, text) != wanted]
    print(f"{len(WORKED)} worked examples, {len(differences)} differences", *differences, sep="\n")
    raise SystemExit(1 if differences else 0)
