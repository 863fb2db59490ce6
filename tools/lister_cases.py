#!/usr/bin/env python3
"""Makes what the programs `lister` and `listings` are run on, and what they must print.

    tools/lister_cases.py            writes the files of crates/lister and crates/listings anew
    tools/lister_cases.py N FILE     writes an image of 256 pages in each of N banks, every record right, to FILE

The records are made by libgcrypt, Twofish with 32 key bytes in CBC with a zero first chaining block, over the place
block and the page: nothing of this repository enciphers them. What must be printed follows from how each slot was
made, and not from any program's answer.
"""
import ctypes
import ctypes.util
import pathlib
import sys

TWOFISH, CBC = 10, 3  # GCRY_CIPHER_TWOFISH, GCRY_CIPHER_MODE_CBC
gcrypt = ctypes.CDLL(ctypes.util.find_library("gcrypt"))
gcrypt.gcry_check_version.restype = ctypes.c_char_p
assert gcrypt.gcry_check_version(None)

KEY = bytes(range(1, 33))
OTHER_KEY = bytes(range(2, 34))
CRATES = pathlib.Path(__file__).resolve().parent.parent / "crates"


class Sealer:
    """Seals records under one key."""

    def __init__(self, key):
        self.handle = ctypes.c_void_p()
        assert gcrypt.gcry_cipher_open(ctypes.byref(self.handle), TWOFISH, CBC, 0) == 0
        assert gcrypt.gcry_cipher_setkey(self.handle, key, ctypes.c_size_t(len(key))) == 0

    def record(self, bank, page):
        plain = bytes([bank, page]) + bytes(14) + bytes((bank + 3 * page + i) % 256 for i in range(256))
        record = ctypes.create_string_buffer(272)
        assert gcrypt.gcry_cipher_setiv(self.handle, bytes(16), ctypes.c_size_t(16)) == 0
        assert gcrypt.gcry_cipher_encrypt(self.handle, record, ctypes.c_size_t(272), plain, ctypes.c_size_t(272)) == 0
        return record.raw


def opening(pages, banks):
    return bytes([pages - 1, banks - 1]) + KEY


def changed(record, at):
    return record[:at] + bytes([record[at] ^ 1]) + record[at + 1:]


def cases():
    """The name of each case, its input, and what must be printed."""
    right = Sealer(KEY).record
    other = Sealer(OTHER_KEY).record

    # one page, two banks, a right first record and nothing after it
    yield "example", opening(1, 2) + right(0, 0), "00:00 ok\n01:00 missing\nok 1 of 2\n"

    # fewer bytes than an opening has, and no more than it has
    yield "empty", b"", "bad input\n"
    yield "short", opening(1, 1)[:33], "bad input\n"
    yield "alone", opening(1, 1), "00:00 missing\nok 0 of 1\n"

    # two banks of four pages. The look is at the first block alone, so a later block that was changed shows nothing
    slots = [
        (right(0, 0), "00:00 ok"),
        (right(1, 0), "00:01 holds 01:00"),  # of bank 1, page 0
        (other(0, 2), "00:02 wrong"),  # under another key
        (changed(right(0, 3), 15), "00:03 wrong"),  # the last byte of the first block
        (right(1, 0), "01:00 ok"),
        (changed(right(1, 1), 16), "01:01 ok"),  # the first byte after it
        (right(255, 254), "01:02 holds ff:fe"),  # of a place beyond the geometry
        (bytes(272), "01:03 wrong"),
    ]
    image = b"".join(record for record, _ in slots)
    lines = "".join(line + "\n" for _, line in slots)
    yield "whole", opening(4, 2) + image, lines + "ok 3 of 8\n"
    yield "extra", opening(4, 2) + image + b"\0", lines + "ok 3 of 8\nextra\n"

    # a short tail is taken for its slot, and the slots after it are missing too
    tail = right(0, 0) + right(0, 2)[:271]
    yield "tail", opening(2, 2) + tail, "00:00 ok\n00:01 missing\n01:00 missing\n01:01 missing\nok 1 of 4\n"

    # places with two hex digits
    places = "".join(f"{bank:02x}:{page:02x} missing\n" for bank in range(11) for page in range(17))
    yield "places", opening(17, 11), places + "ok 0 of 187\n"


def write_cases():
    data = CRATES / "listings" / "data"
    data.mkdir(exist_ok=True)
    names, printed = [], []
    for name, given, wanted in cases():
        if name == "example":
            (CRATES / "lister" / "stdin").write_bytes(given)
            (CRATES / "lister" / "stdout").write_text(wanted)
        else:
            (data / name).write_bytes(given)
            names.append(name)
            printed.append(f"{name}:\n{wanted}")
    (CRATES / "listings" / "args").write_text("\n".join(names) + "\n")
    (CRATES / "listings" / "stdout").write_text("".join(printed))


def write_image(banks, path):
    record = Sealer(KEY).record
    with open(path, "wb") as file:
        file.write(opening(256, banks))
        for bank in range(banks):
            for page in range(256):
                file.write(record(bank, page))


if __name__ == "__main__":
    if len(sys.argv) == 3:
        write_image(int(sys.argv[1]), sys.argv[2])
    else:
        write_cases()
