#!/usr/bin/env python3
"""What the programs must print, worked out by an independent implementation: Python's hashlib.

    tests/expected.py           compares it with the files that the gate holds the programs to
    tests/expected.py --write   writes those files
"""
import hashlib
import os
import struct
import sys

CRATES = os.path.join(os.path.dirname(os.path.dirname(os.path.abspath(__file__))), "crates")

# RFC 7693: appendix A's digest of "abc", and appendix E's hash of hashes
APPENDIX_A = (
    "ba80a53f981c4d0d6a2797b69f12f6e94c212f14685ac4b74b12bb6fdbffa2d1"
    "7d87c5392aab792dc252d5de4533cc9518d38aa8dbf1925ab92386edd4009923"
)
APPENDIX_E = "c23a7800d98123bd10f506c61e29da5603d763b8bbad2e737f5e765a7bccd475"


def sequence(n):
    """Appendix E's selftest_seq, with the length as its seed."""
    a, b, out = (0xDEAD4BAD * n) & 0xFFFFFFFF, 1, bytearray()
    for _ in range(n):
        a, b = b, (a + b) & 0xFFFFFFFF
        out.append(b >> 24)
    return bytes(out)


def vectors():
    lines = []

    def show(nn, key, message, before=""):
        digest = hashlib.blake2b(message, digest_size=nn, key=key).digest()
        lines.append(f"{before}{nn} {len(key)} {len(message)} {digest.hex()}")
        return digest

    lines.append("appendix A")
    assert show(64, b"", b"abc").hex() == APPENDIX_A
    lines.append("appendix E")
    every = b""
    for nn in (20, 32, 48, 64):
        for n in (0, 3, 128, 129, 255, 1024):
            every += show(nn, b"", sequence(n))
            every += show(nn, sequence(nn), sequence(n))
    assert show(32, b"", every, "the hash of these hashes: ").hex() == APPENDIX_E
    lines.append("around blocks")
    for n in (0, 1, 127, 128, 129, 255, 256, 374, 1024):
        show(32, b"", sequence(n))
    return ("\n".join(lines) + "\n").encode()


def tape_list(tapes):
    out = struct.pack("<I", len(tapes))
    for name, length, start in sorted(tapes):
        out += struct.pack("<I", len(name)) + name + struct.pack("<QQ", length, start)
    return out


def record(epoch, tapes):
    bytes_ = tape_list(tapes)
    hashed = b"epoch" + struct.pack("<Q", epoch) + b"tapes" + bytes_
    digest = hashlib.blake2b(hashed, digest_size=32).digest()
    return struct.pack("<I", 1) + digest + struct.pack("<QI", epoch, len(bytes_)) + bytes_


def inspected():
    tapes = [(b"b-room_2", 2**64 - 1, 0), (b"a", 11, 6)]
    text = "epoch 7\n" + "".join(f"tape {n.decode()} len {l} start {s}\n" for n, l, s in sorted(tapes))
    return record(7, tapes) + b"the tail of an older, longer record", text.encode()


def files():
    file, text = inspected()
    return {"vectors/stdout": vectors(), "inspect/stdin": file, "inspect/stdout": text}


def main():
    wrong = 0
    for name, text in files().items():
        path = os.path.join(CRATES, name)
        if "--write" in sys.argv[1:]:
            open(path, "wb").write(text)
        elif not os.path.exists(path) or open(path, "rb").read() != text:
            print("differs from the independent implementation:", name)
            wrong += 1
    sys.exit(1 if wrong else 0)


main()
