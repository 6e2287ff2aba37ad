#!/usr/bin/env python3
"""Writes till/texts, the records that `till -r` reads, and till/expected, what it must print, from the list below.

Each entry is a text, the number that document 01 gives it, and for the numbers of a byte the byte at fault, counted from 1.
"""
import os

WORDS = {0: "linked", 2: "long text", 3: "stray mark", 4: "deep", 5: "bad counter", 6: "bad constant", 7: "unfinished", 8: "table full", 9: "many counters"}
NAMES = {9: " (a Tab)", 10: " (a newline)", 13: " (a carriage return)"}
SHOWN = 64


def pair(inside):
    return b"(" + inside + b")"


TEXTS = [
    # document 01's examples
    (b"()", 0), (b"(;)", 0), (b"(())", 0), (b"(:)", 0), (b"(N;)", 0), (b"(N)", 0), (b"('/5'N)", 0),
    (b"('/0'($5$'/1'+:;);)", 0), (b"('/0'('/1'+$5$:;);)", 0), (b"(0L'/1';'/1'-d'/2'*;)", 0), (b"(Id;)", 0),
    (b"(" * 10 + b")" * 10, 0), (b"(" * 11 + b")" * 11, 4, 11),
    (pair(b"N" * 123), 0), (pair(b"N" * 124), 8, 126), (pair(b"$0$"), 5, 4), (b"", 7),
    # marks, blanks and comments
    (b" \n\"a comment, with ' and ;\n\" ( A L M P O X I + - * / F0 S9 N 0 J a z ) \"\" ", 0),
    (b"(,.)", 0), (pair(b"''Total: '"), 0), (pair(b"'''"), 0), (pair(b"'/-999999999'"), 0), (pair(b"$9999$"), 0),
    # 2: over 256 bytes
    (b"()" + b" " * 254, 0), (b"()" + b" " * 255, 2, 257), (b"(" * 300, 2, 257), (b"\n" * 300, 2, 257), (b"\n" * 100 + b"x" * 400, 2, 257),
    # 3: stray marks
    (b"N", 3, 1), (b")", 3, 1), (b"(1)", 3, 2), (b"(B)", 3, 2), (b"(\t)", 3, 2), (b"(\x00)", 3, 2), (b"(\xff)", 3, 2), (b"()()", 3, 3), (b"()N", 3, 3),
    (b"() '/", 3, 4), (b"$", 3, 1), (b"'", 3, 1), (b"(F )", 3, 3), (b"(S;)", 3, 3), (b"('x')", 3, 3), (b"(''a\nb')", 3, 5), (b"(''\x7f')", 3, 4),
    (b"\"\x1f\"()", 3, 2), (b"()\"\x80\"", 3, 4), (b"()\r\n", 3, 3), (b"(F\n", 3, 3), (b"(N\n(F\n)", 3, 6), (b"\n\n(N;\n  B;\n)\n", 3, 9),
    (b"(" + b"+" * 62 + b"B", 3, 64), (b"(" + b"+" * 63 + b"B", 3, 65), (b"(" + b"+" * 63 + b"B" + b"+" * 32, 3, 65), (b"(B" + b"+" * 70, 3, 2),
    (b"(" + b"+" * 31 + b"B" + b"+" * 40, 3, 33), (b"(" + b"+" * 32 + b"B" + b"+" * 40, 3, 34), (b"\n" + b"(" + b"+" * 99 + b"\x01" + b"+" * 99 + b"\n)", 3, 102),
    # 4: levels
    (b"(" * 9 + b"()()" + b")" * 9, 0), (b"(" * 10 + b"(", 4, 11), (b"(" * 11, 4, 11), (b"(" * 10 + b")" * 5 + b"(" * 6, 4, 21),
    # 5: counters
    (pair(b"$1$"), 0), (pair(b"$$"), 5, 3), (pair(b"$0000$"), 5, 7), (pair(b"$12345$"), 5, 7), (pair(b"$1 $"), 5, 4), (pair(b"$-1$"), 5, 3), (pair(b"$0001$"), 0),
    # 6: constants
    (pair(b"'/1'"), 0), (pair(b"'/'"), 6, 4), (pair(b"'/-'"), 6, 5), (pair(b"'/--1'"), 6, 5), (pair(b"'/1234567890'"), 6, 13), (pair(b"'/1 '"), 6, 5),
    (pair(b"'/123456789'"), 0),
    # 7: unfinished
    (b"(", 7), (b"(N", 7), (b"(()", 7), (b"($", 7), (b"($12", 7), (b"('", 7), (b"('/", 7), (b"('/-", 7), (b"('/1", 7), (b"(''", 7), (b"(''ab", 7), (b"(F", 7),
    (b"\"", 7), (b"()\"", 7), (b" \n", 7), (b"(N \n \n", 7), (b"(N\n N \n", 7), (b"(" + b"+" * 63 + b"  \n", 7), (b"(" + b"+" * 64, 7), (b"(" + b" " * 99, 7),
    # 8: cells; the form and 9 come before it
    (pair(b"+" * 247), 0), (pair(b"+" * 248), 8, 250), (pair(b"+" * 249), 8, 251), (b"(" + b"+" * 248 + b"()", 7), (b"(" + b"+" * 249 + b"()", 8, 252),
    (b"(" + b"+" * 249, 7), (pair(b"+" * 245 + b"F1"), 0), (pair(b"+" * 246 + b"F1"), 8, 250),
    (pair(b"+" * 243 + b"$1$"), 0), (pair(b"+" * 244 + b"$1$"), 8, 249), (b"(" + b"+" * 249 + b"$0$", 5, 253), (b"(" + b"+" * 249 + b"B", 3, 251),
    (pair(b"''" + b"x" * 245 + b"'"), 0), (pair(b"''" + b"x" * 246 + b"'"), 8, 251), (pair(b"()" * 60), 0),
    # 9: counters; the form comes before it, and it comes before 8
    (pair(b"$1$" * 16), 0), (pair(b"$1$" * 17), 9, 52), (pair(b"$1$" * 16 + b"$0$"), 5, 52), (pair(b"$1$" * 16 + b"+" * 185 + b"$1$"), 9, 237),
    (pair(b"$1$" * 16 + b"+" * 183), 0), (pair(b"$1$" * 16 + b"+" * 184), 8, 234),
]


def shown(text, at):
    """The line of the text that byte `at`, counted from 0, stands in, some 64 bytes of it, and the mark under that byte."""
    start = text.rfind(b"\n", 0, at) + 1
    line = "".join(chr(b) if 32 <= b <= 126 else "?" for b in text[start:].split(b"\n")[0])
    column = at - start
    first = max(0, min(column - SHOWN // 2, len(line) - SHOWN))
    part = ("..." if first else "") + line[first:first + SHOWN] + ("..." if first + SHOWN < len(line) else "")
    return f"     {part}\n" + " " * (5 + (3 if first else 0) + column - first) + "^\n"


def fault(text, number, byte=None):
    """What follows the word of a text's number."""
    if number == 0:
        return "\n"
    trimmed = text.rstrip(b" \n")
    at = byte - 1 if byte else len(trimmed)
    place = f" at byte {byte}" if byte else " at the end"
    line = f", line {text.count(10, 0, at) + 1}" if b"\n" in trimmed else ""
    name = "" if not byte or 32 <= text[at] <= 126 else NAMES.get(text[at], f" (byte {text[at]})")
    return place + line + name + "\n" + shown(text, at)


if __name__ == "__main__":
    here = os.path.dirname(os.path.abspath(__file__))
    with open(os.path.join(here, "texts"), "wb") as texts, open(os.path.join(here, "expected"), "w") as expected:
        for place, (text, number, *byte) in enumerate(TEXTS, 1):
            texts.write(b"%d\n" % len(text) + text + b"\n")
            expected.write("%4d %3d %s" % (place, number, WORDS[number]) + fault(text, number, *byte))
