"""The capture that the program `headers` is run on, and what it must print."""

import re
from typing import Dict

import check_octet as division
from bits import bits_of, number_of


def check_octet(header):
    return number_of(division.check_octet(bits_of(header, 32)))


def syndrome(word):
    return number_of(division.syndrome(bits_of(word, 40)))


def kind(word):
    return {1: "idle", 9: "F3"}.get(word >> 8, "user")


def spaced(word):
    return " ".join(f"{octet:02X}" for octet in word.to_bytes(5, "big"))


def verdict(word):
    """The name of the count, and the text."""
    if syndrome(word) == 0:
        return "clean", "clean"
    mendings = [bit for bit in range(40) if syndrome(word ^ 1 << 39 - bit) == 0]
    if not mendings:
        return "past", "past mending"
    (bit,) = mendings
    mended = word ^ 1 << 39 - bit
    return "one", f"bit {bit} wrong, mended {spaced(mended)} {kind(mended)}"


def fault(text):
    """Why a line is no header, None if it may be one."""
    front = re.match(rb"(?:[ \t]|[0-9A-Fa-f]{2})*", text).end()
    if front == len(text):
        octets = len(re.sub(rb"[ \t]", b"", text)) // 2
        if octets in (0, 5):
            return None
        return f"too {'few' if octets < 5 else 'many'} octets, {octets} in place of 5"
    half = re.match(rb"[0-9A-Fa-f](?=[ \t]|\Z)", text[front:])
    if half:
        return f"the octet in column {front + 1} has one digit"
    digits = re.match(rb"[0-9A-Fa-f]?", text[front:]).end()
    return f"column {front + digits + 1} is no hexadecimal digit"


def report(number, word):
    header = word >> 8
    vpi, vci = header >> 20 & 0xFF, header >> 4 & 0xFFFF
    fields = f"GFC {header >> 28:>2}  VPI {vpi:>3}  VCI {vci:>5}  PT {header >> 1 & 7}  CLP {header & 1}"
    connection = f"connection {vpi * 65536 + vci:>8}"
    return f"{number:>5}  {spaced(word)}  {kind(word):<4}  {fields}  {connection}  syndrome {syndrome(word):02X}  {verdict(word)[1]}"


def printed(capture):
    lines, counts = [], {"clean": 0, "one": 0, "past": 0, "malformed": 0}
    for number, line in enumerate(re.findall(rb"[^\n]*\n|[^\n]+\Z", capture), 1):
        text = re.sub(rb"\r?\n\Z", b"", line)
        why = fault(text)
        if why:
            counts["malformed"] += 1
            lines.append(f"{number:>5}  malformed: {why}")
        elif text.strip(b" \t"):
            word = int(re.sub(rb"[ \t]", b"", text), 16)
            counts[verdict(word)[0]] += 1
            lines.append(report(number, word))
    headers = counts["clean"] + counts["one"] + counts["past"]
    lines.append("headers {}: clean {clean}, one wrong bit {one}, past mending {past}; malformed lines {malformed}".format(headers, **counts))
    return "".join(line + "\n" for line in lines).encode()


def sent(header):
    return header << 8 | check_octet(header)


def turned(word, *bits):
    for bit in bits:
        word ^= 1 << 39 - bit
    return spaced(word).encode()


def capture():
    user, other = sent(0x1234_5678), sent(0xF0A0_0BC7)
    lines = [
        # clean, of each kind, in each way of writing
        b"00 00 00 01 52", b"00 00 00 09 6A", b"00 00 00 00 55", b"be cf ed e9 f8", b"BECFEDE9F8", b"7786A112 00", b"77 86 a1 12 00",
        b"bEcFeDe9F8", b"\t00\t00\t00\t01\t52\t", b"   00000009   6a  ", b"0000 0009 6a\r", b"0000000152\r", spaced(user).encode(), turned(other),
        b"", b"\r", b"   ", b" \t \t\r", b"FF FF FF FF" + f" {check_octet(0xFFFF_FFFF):02x}".encode(),
        # one wrong bit, in the header and in the check octet
        b"00 00 00 00 52", turned(sent(1), 0), turned(sent(1), 31), turned(sent(1), 32), turned(sent(1), 33), turned(sent(9), 39), turned(sent(9), 28),
        *(turned(user, bit) for bit in (0, 3, 4, 11, 12, 19, 27, 30, 31, 32, 35, 38, 39)), turned(other, 1), turned(other, 33), turned(other, 34),
        # two wrong bits and more
        b"00 00 00 01 92", turned(user, 0, 1), turned(user, 31, 32), turned(user, 0, 39), turned(other, 38, 39), turned(other, 5, 17), turned(sent(1), 28, 30), turned(other, 32, 33),
        b"FFFFFFFFFF", b"0123456789",
        # no headers
        b"0000000000 0", b"000000015", b"00000001520", b"00 00 00 01 5", b"00 00 00 1 52", b"0 0 00 00 01 52", b"00 00 00 01 52 00", b"000000015200", b"00 00 00 01",
        b"52", b"7", b"g", b"00 00 00 0G 52", b"00 00 00 G0 52", b"0x00 00 00 01 52", b"00,00,00,01,52", b"00-00", b"00 00 00 01 52 # idle", b"00 00 00 01\r52",
        b"\xff\xfe\x00\x01\x52", b"00 00 00 01 5\xb2", b"\xef\xbb\xbf00 00 00 01 52", b"00\x0000000152", b"00 00 00 01 52\r\r", b"00\x0b00 00 01 52",
        # long lines
        b"A5" * 10_000, b" " * 5000 + b"x", b"0" * 4001, b"00 00" + b"\t " * 2500 + b"00 09 6A", b" " * 20_000,
        # and the last, which has no line end
        b"00 00 00 00 07",
    ]
    return b"\n".join(lines)


def files() -> Dict[str, bytes]:
    return {"stdin": capture(), "stdout": printed(capture())}
