#!/usr/bin/env python3
"""A bank, given in hexadecimal, or the text of a tag and how many words its bank is to have, if not the fewest:
decode.py LIBRARY [30003074257BF7194E4000001A85 | urn:epc:tag:gid-96:1.2.3 | urn:epc:tag:gid-96:1.2.3 8].

LIBRARY is the shared library of include/tagcodec.h (tests/link makes target/link/libtagcodec.so). Prints the number of the first broken
rule, 0 for none. With 0: the tag's text and how many words its bank has, or the bank. With another: the place, and for a bank the line on
the screen, if there is one to show; for a text the text, and a mark under the character at the place. 21 and 22 refuse the number of
words, not the text: that number stands for the place, without a mark.
"""
import ctypes
import os
import re
import sys

TEXT_ROOM = 160


class Reply(ctypes.Structure):
    _fields_ = [("number", ctypes.c_uint32), ("place", ctypes.c_uint16), ("words", ctypes.c_uint16), ("length", ctypes.c_size_t)]


class Shown(ctypes.Structure):
    _fields_ = [("text", ctypes.c_uint32), ("length", ctypes.c_size_t)]


def load(path):
    library = ctypes.CDLL(path)
    lent, number = [ctypes.c_char_p, ctypes.c_size_t], [ctypes.c_uint32]
    for name in ("text_to_bank", "bank_to_text", "raw_line", "tag_to_identity", "identity_to_tag"):
        call = getattr(library, "tagcodec_" + name)
        call.argtypes, call.restype = lent + lent, Reply
    library.tagcodec_text_to_bank.argtypes = lent + number + lent
    library.tagcodec_identity_to_tag.argtypes = lent + number + lent
    library.tagcodec_screen.argtypes = lent + lent + number
    library.tagcodec_screen.restype = Shown
    return library


def written(call, given, *number):
    """What a call of the library gives: its reply, and the bytes that it wrote. A word count or a filter may be given."""
    out = ctypes.create_string_buffer(TEXT_ROOM)
    reply = call(given, len(given), *number, out, len(out))
    return reply, out.raw[: reply.length]


def from_hex(text):
    """The bytes of an even number of upper-case hex digits; None for any other text."""
    return bytes.fromhex(text) if len(text) % 2 == 0 and set(text) <= set("0123456789ABCDEF") else None


def from_decimal(text):
    """The value of decimal digits, if 32 bits hold it; None for any other text."""
    digits = re.fullmatch("0*([0-9]{1,10})", text)
    return int(digits[1]) if digits and int(digits[1]) < 2**32 else None


def show_bank(library, bank):
    shown, tag = written(library.tagcodec_bank_to_text, bank)
    _, raw = written(library.tagcodec_raw_line, bank)
    screen = library.tagcodec_screen(tag, len(tag), raw, len(raw), shown.number)
    line = (tag, raw)[screen.text][: screen.length].decode()
    match shown.number:
        case 0:
            print(0, line, "in", shown.words, "words")
        case 9:
            print(9, "at", shown.place, "bytes")
        case number:
            print(f"{number} at {shown.place:X}h {line}".rstrip())


def show_text(library, text, words):
    reply, bank = written(library.tagcodec_text_to_bank, text, words)
    match reply.number:
        case 0:
            print(0, bank.hex().upper())
        case 21 | 22:
            print(reply.number, "at", words, "words")
        case _:
            show_refused(reply, text)


def show_refused(reply, text):
    """Prints the number and the place, then the text, and a mark under the character at the place."""
    print(reply.number, "at", reply.place)
    print("".join(chr(byte) if 0x20 <= byte <= 0x7E else "?" for byte in text))
    print(" " * reply.place + "^")


def main():
    if len(sys.argv) < 2:
        sys.exit(__doc__)
    library = load(sys.argv[1])
    match sys.argv[2:] or ["30003074257BF7194E4000001A85"]:
        case [text] if text.startswith("urn:"):
            show_text(library, os.fsencode(text), 0)
        case [text, words] if text.startswith("urn:") and from_decimal(words) is not None:
            show_text(library, os.fsencode(text), from_decimal(words))
        case [bank] if from_hex(bank) is not None:
            show_bank(library, from_hex(bank))
        case given:
            wanted = "a text that begins with urn:, alone or with a word count below 2^32, or an even number of upper-case hex digits"
            print(f"decode: {wanted}: {' '.join(given)}", file=sys.stderr)
            sys.exit(2)


if __name__ == "__main__":
    main()
