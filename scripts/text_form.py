"""The text form of bytes, written from the specification and not from the code."""
CONTROLS = {
    0x05: "wht", 0x0E: "swlc", 0x11: "down", 0x12: "rvon", 0x13: "home", 0x14: "del", 0x1C: "red", 0x1D: "rght", 0x1E: "grn", 0x1F: "blu",
    0x81: "orng", 0x8E: "swuc", 0x90: "blk", 0x91: "up", 0x92: "rvof", 0x93: "clr", 0x94: "inst", 0x95: "brn", 0x96: "lred", 0x97: "gry1",
    0x98: "gry2", 0x99: "lgrn", 0x9A: "lblu", 0x9B: "gry3", 0x9C: "pur", 0x9D: "left", 0x9E: "yel", 0x9F: "cyn",
}


def spell(byte):
    if 0x41 <= byte <= 0x5A:
        return chr(byte + 0x20)
    if 0x20 <= byte <= 0x40 or 0x5B <= byte <= 0x5F:
        return chr(byte)
    if 0xC1 <= byte <= 0xDA:
        return chr(byte - 0x80)
    if byte == 0xFF:
        return "~"
    return "{" + CONTROLS.get(byte, f"${byte:02x}") + "}"


def to_text(data):
    return "".join(map(spell, data))


UNITS = {**{f"{{${byte:02x}}}": byte for byte in range(256)}, **{spell(byte): byte for byte in range(256)}}


def from_text(text):
    """The bytes of a text, or None if it has a fault."""
    data = bytearray()
    while text:
        length = text.find("}") + 1 if text[0] == "{" else 1
        unit = text[:length].lower() if length > 1 else text[:length]
        if unit not in UNITS:
            return None
        data.append(UNITS[unit])
        text = text[length:]
    return bytes(data)
