#!/usr/bin/env python3
"""Tests the yardstick against a second, slow reading of the line grammar.

check_yardstick.py [YARDSTICK]

Both read some thousand small files: sound lines with other spellings and
damaged ones. They must name the same first bad line or give the same answer.
"""
import datetime
import os
import random
import re
import subprocess
import sys
import tempfile

HERE = os.path.dirname(os.path.abspath(__file__))

SOUND = [
    b"1|155190|7706|1|17|21168.23|0.04|0.02|N|O|1996-03-13|1996-02-12|1996-03-22|DELIVER IN PERSON|TRUCK|egular courts above the|",
    b"1|67310|7311|2|36|45983.16|0.09|0.06|N|O|1996-04-12|1996-02-28|1996-04-20|TAKE BACK RETURN|MAIL|ly final dependencies: slyly bold |",
    b"1|63700|3701|3|8|13309.60|0.10|0.02|N|O|1996-01-29|1996-03-05|1996-01-31|TAKE BACK RETURN|REG AIR|riously. regular, express dep|",
]
FIRST_DAY, LAST_DAY = datetime.date(1992, 1, 1), datetime.date(1998, 12, 31)

# Spellings of a field, the column of the field from 0 and then sound and unsound texts.
INTEGERS = "0 1 7 8 007 0000000001 00000000001 9999999999 +1 -1 1e0 1. 1.0 1,0"
MONEY = "0 1 0. .5 0.1 0.01 0.10 0.010 0.1.0 00.05 0000000000.05 00000000000.05 -0.01 +0.01 0,05 1e-2 0.0x"
SPELLINGS = {
    0: INTEGERS + " 4294967295 4294967296 18446744073709551617",
    1: "0 x ~", 2: "0 x ~",
    3: INTEGERS,
    4: INTEGERS + " 50 51 17.0 17.00 17.000 17.01 17.10 17. .0 050.00",
    5: MONEY + " 999999.99 999999.9 1000000 1000000.00 9999999999.99 184467440737095516.16",
    6: MONEY + " 0.11 0.2 1", 7: MONEY + " 0.08 0.09 0.1 1",
    8: "A N R B a NN", 9: "F O N f FF",
    10: "1992-01-01 1991-12-31 1998-12-31 1999-01-01 1996-02-29 1995-02-29 1996-02-30 1996-04-31 "
        "1996-00-10 1996-13-01 1996-01-00 1996-1-01 1996-01-1 01996-01-01 1996-01-011 1996/01/01 "
        "96-01-01 1996-01-32 2096-01-01 1996-12-31 199:-01-01 1996-0/-01 1996-01-3: 1096-01-01",
    11: "x ~ 1996-99-99", 12: "x", 13: "x " + "long" * 700, 14: "x", 15: "x",
}


def whole(text):
    if not re.fullmatch(rb"[0-9]{1,10}", text):
        raise ValueError
    return int(text)


def hundredths(text):
    match = re.fullmatch(rb"([0-9]{1,10})(?:\.([0-9]{1,2}))?", text)
    if not match:
        raise ValueError
    return int(match[1]) * 100 + int((match[2] or b"").ljust(2, b"0"))


def day(text):
    if not re.fullmatch(rb"[0-9]{4}-[0-9]{2}-[0-9]{2}", text):
        raise ValueError
    return datetime.date(*map(int, text.split(b"-")))


def row(line):
    fields = line.split(b"|")
    if line.endswith(b"|"):
        fields.pop()
    if len(fields) != 16:
        raise ValueError
    if not all(32 <= byte <= 126 for field in fields[1:3] + fields[11:] for byte in field):
        raise ValueError
    order, number = whole(fields[0]), whole(fields[3])
    quantity = whole(re.fullmatch(rb"(.*?)(\.00?)?", fields[4], re.S)[1])
    price, discount, tax = map(hundredths, fields[5:8])
    shipped = day(fields[10])
    if not (1 <= order <= 4294967295 and 1 <= number <= 7 and 1 <= quantity <= 50
            and price <= 99999999 and discount <= 10 and tax <= 8
            and fields[8] in (b"A", b"N", b"R") and fields[9] in (b"F", b"O")
            and FIRST_DAY <= shipped <= LAST_DAY):
        raise ValueError
    return (order, number), quantity, price, discount, shipped


def answer(content, year, discount, below):
    lines = content.split(b"\n")
    if lines[-1] == b"":
        lines.pop()
    seen, count, total = set(), 0, 0
    for number, line in enumerate(lines, 1):
        try:
            key, quantity, price, cents, shipped = row(line[:-1] if line.endswith(b"\r") else line)
            if key in seen:
                raise ValueError
        except ValueError:
            return 5, f"line {number}: bad"
        seen.add(key)
        if shipped.year == year and abs(cents - discount) <= 1 and quantity < below:
            count, total = count + 1, total + price * cents
    return 0, f"front=0 count={count} sum={total // 10000}.{total % 10000:04}"


def contents(draw):
    plain = b"\n".join(SOUND) + b"\n"
    yield from (plain, b"", b"\n", b"\r", b"\r\n", b"|", plain[:-1], plain[:-2], plain[:-3], plain + b"\n",
                plain + b"\r\n", plain.replace(b"\n", b"\r\n"), plain.replace(b"\n", b"\r\r\n"),
                plain.replace(b"|\n", b"\n"), plain.replace(b"|\n", b"\r\n"), plain[:-1] + b"\r",
                plain.replace(b"|\n", b"||\n"), b"\n".join(SOUND[::-1]), plain + SOUND[1],
                b"\n".join(SOUND[::-1] + [b"bad"]), b"\n".join(SOUND[::-1] + SOUND[:1] + [b"bad"]))
    for length in range(len(SOUND[0])):
        yield SOUND[0][:length]
        yield SOUND[0][:length] + b"\n" + SOUND[1][length:] + b"\n"
    for column, texts in SPELLINGS.items():
        for text in [b""] + texts.encode().split(b" "):
            fields = SOUND[1].split(b"|")
            fields[column] = text
            yield b"\n".join([SOUND[0], b"|".join(fields), SOUND[2]])
    for number in (9, 15, 16, 17, 20, 260, 271, 272):
        yield SOUND[0] + b"|" * number
        yield SOUND[0][:-1] + b"|" * number + b"x"
    # The end of a line is looked at many bytes at a time: texts of each length, and a bad byte at each place.
    for length in range(150):
        text = b"x" * length
        yield SOUND[0][:-1] + text
        yield b"\n".join([SOUND[0][:-1] + text + b"|", SOUND[1]])
        yield SOUND[0][:-1] + text + b"\x7f" + text + b"|"
        yield SOUND[0].replace(b"|155190|", b"|" + text + b"|")
    for byte in range(256):
        place = draw.randrange(len(plain))
        yield plain[:place] + bytes([byte]) + plain[place + 1:]
        yield plain.replace(b"above", bytes([byte]))
        yield plain.replace(b"155190", bytes([byte]))
    for _ in range(1000):
        damaged = bytearray(plain)
        for _ in range(draw.choice((1, 1, 2))):
            place = draw.randrange(len(damaged))
            damaged[place:place + draw.randrange(2)] = draw.choice(
                [b"", b"|", b"\r", b"\n", b"0", b"1", b"9", b".", b"-", b" ", b"\x7f", b"\xff", b"A"])
        yield bytes(damaged)
    # Keys out of order, some of them repeated, and at times a bad line after them.
    for _ in range(300):
        lines = []
        for _ in range(draw.randrange(2, 12)):
            fields = draw.choice(SOUND).split(b"|")
            fields[0] = str(draw.choice((1, 2, 2**9 + 1, 2**21 + 1, 2**22 + 1, 2**32 - 1))).encode()
            fields[3] = str(draw.randrange(1, 8)).encode()
            lines.append(b"|".join(fields))
        yield b"\n".join(lines + draw.choice(([], [b"bad"])))


def main():
    yardstick = sys.argv[1] if len(sys.argv) > 1 else os.path.join(HERE, "build", "yardstick")
    draw = random.Random(1)
    judged, sound = 0, 0
    with tempfile.TemporaryDirectory() as folder:
        path = os.path.join(folder, "lineitem.tbl")
        for content in contents(draw):
            with open(path, "wb") as file:
                file.write(content)
            year, discount, below = draw.choice(((1996, 5, 24), (1996, 10, 51), (1996, 9, 37), (1992, 0, 9)))
            run = subprocess.run([yardstick, "q6", path, str(year), f"0.{discount:02}", str(below)],
                                 capture_output=True, text=True)
            said = run.stdout if run.returncode == 0 else run.stderr
            status, text = answer(content, year, discount, below)
            expected = text if status == 0 else f"yardstick: {path}: {text}"
            if (run.returncode, said) != (status, expected + "\n"):
                sys.exit(f"{content!r}\nexpected {status} {expected}\nbut was  {run.returncode} {said}")
            judged, sound = judged + 1, sound + (status == 0)
    print(f"{judged} files judged alike, {sound} of them sound")


main()
