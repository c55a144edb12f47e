# Writes the inputs of the bench into a folder, the same ones at every run.
#   inputs.py FOLDER MIB
# Each input has MIB MiB; the real-looking recording is written at 1, 16, 64 and 256 MiB too.
import random
import struct
import sys
from pathlib import Path

MIB = 1 << 20


def tuple_of(source_type, source_id, data_type, time, body):
    head = struct.pack("<HHHHIH", 0x8000, source_type, source_id, data_type, time, len(body))
    return head + body + struct.pack("<H", len(body))


def cut(parts, size):
    return b"".join(parts)[:size]


def filled(size, part):
    parts, length = [], 0
    while length < size:
        made = part()
        parts.append(made)
        length += len(made)
    return cut(parts, size)


def random_bytes(size):
    return random.Random(1).randbytes(size)


# Pings with samples that fall off with noise, settings now and then, navigation between the pings; a few stretches are hurt.
def recording(size):
    rng = random.Random(2)
    pool = bytes(min(255, int(abs(rng.gauss(0, 30)) + (rng.random() < 0.02) * 120)) for _ in range(MIB))
    state = {"time": 43_200_000, "count": 0}

    def ping(head):
        samples = rng.choice((400, 500, 1000, 2000))
        extra = struct.pack("<HBBHHHBBBBLH", samples + 20, 1, 0, 8, rng.randrange(6400), rng.randrange(6400), 1, 8, 1, 11, 100_000, 0)
        start = rng.randrange(MIB - samples)
        return tuple_of(3, head, 12, state["time"], extra + pool[start:start + samples])

    def navigation():
        kind, size = rng.choice(((1005, 56), (1004, 60), (1003, 9), (1007, 36), (5, 9), (10, 33), (1001, 27)))
        return tuple_of(1, 2, kind, state["time"], rng.randbytes(size))

    def part():
        state["count"] += 1
        state["time"] = (state["time"] + rng.randrange(5, 60)) % 86_400_000
        if state["count"] % 500 == 1:
            return tuple_of(3, 7, 15, state["time"], rng.randbytes(222))
        if state["count"] % 2_000 == 3:
            hurt = bytearray(ping(7))
            hurt[rng.randrange(2)] ^= 0x55
            return bytes(hurt)
        if state["count"] % 4 == 0:
            return navigation()
        return ping(7)

    return filled(size, part)


# Every third place says that a tuple begins there, and none does.
def syncs(size):
    return (b"\x00\x80\x01" * (size // 3 + 1))[:size]


# Headers one behind the other, whose footers lie far ahead and disagree.
def headers(size):
    rng = random.Random(3)

    def part():
        return struct.pack("<HHHHIH", 0x8000, 1, 2, 12, 0x0403_0201, rng.randrange(65_536) | 1)

    block = filled(MIB, part)
    return cut([block] * (size // MIB + 1), size)


# Tuples with empty bodies: as many rows as fit.
def smallest(size):
    rng = random.Random(4)
    block = filled(MIB, lambda: tuple_of(1, rng.randrange(8), 6, rng.randrange(86_400_000), b""))
    return cut([block] * (size // MIB + 1), size)


# Zeros, the first byte of the mark everywhere.
def zeros(size):
    return bytes(size)


def sentence(text, ending="\r\n"):
    total = 0
    for b in text.encode():
        total ^= b
    return f"${text}*{total:02X}{ending}".encode()


# A log of the bridge: fixes, headings, depths; now and then other lines and hurt ones.
def log(size):
    rng = random.Random(5)

    def part():
        clock = f"{rng.randrange(24):02}{rng.randrange(60):02}{rng.randrange(60):02}.{rng.randrange(100):02}"
        north = f"{rng.randrange(90):02}{rng.random() * 60:07.4f},N"
        east = f"{rng.randrange(180):03}{rng.random() * 60:07.4f},E"
        kind = rng.randrange(8)
        if kind == 0:
            made = sentence(f"GPGGA,{clock},{north},{east},1,{rng.randrange(4, 12):02},{rng.random() * 3:.1f},{rng.random() * 40:.1f},M,46.9,M,,")
        elif kind == 1:
            made = sentence(f"GPRMC,{clock},A,{north},{east},{rng.random() * 20:05.1f},{rng.random() * 360:05.1f},230394,003.1,W")
        elif kind == 2:
            made = sentence(f"HEHDT,{rng.random() * 360:.1f},T")
        elif kind == 3:
            depth = rng.random() * 300
            made = sentence(f"SDDBT,{depth * 3.28:.1f},f,{depth:.1f},M,{depth * 0.547:.1f},F")
        elif kind == 4:
            made = sentence(f"GPVTG,{rng.random() * 360:.1f},T,{rng.random() * 360:.1f},M,{rng.random() * 20:.1f},N,{rng.random() * 37:.1f},K")
        elif kind == 5:
            made = sentence(f"GPGLL,{north},{east},{clock},A")
        elif kind == 6:
            made = sentence(f"GPGSV,3,{rng.randrange(1, 4)},11," + ",".join(f"{rng.randrange(1, 33):02},{rng.randrange(90):02},{rng.randrange(360):03},{rng.randrange(50):02}" for _ in range(4)))
        else:
            made = b"!AIVDM,1,1,,A,13u?etPv2;0n:dDPwUM1U1Cb069D,0*24\r\n"
        if rng.randrange(200) == 0:
            made = made.replace(b"*", b"#")
        return made

    # Making text is slow here: a block of it stands again and again.
    block = filled(8 * MIB, part)
    return cut([block] * (size // len(block) + 1), size)


# Sentences that are long and fail in their last byte.
def long_sentences(size):
    rng = random.Random(6)
    block = filled(MIB, lambda: sentence("GPTXT," + "".join(chr(rng.randrange(0x41, 0x5b)) for _ in range(70)), "\r\r"))
    return cut([block] * (size // MIB + 1), size)


# Nothing but the byte that begins a sentence.
def dollars(size):
    return b"$" * size


INPUTS = (
    ("random bytes", "tuples", random_bytes),
    ("recording", "tuples", recording),
    ("smallest tuples", "tuples", smallest),
    ("hostile: a mark at every third place", "tuples", syncs),
    ("hostile: headers without footers", "tuples", headers),
    ("hostile: zeros", "tuples", zeros),
    ("NMEA text", "sentences", log),
    ("random bytes", "sentences", random_bytes),
    ("recording", "sentences", recording),
    ("hostile: long sentences that fail", "sentences", long_sentences),
    ("hostile: dollar signs", "sentences", dollars),
)


def main():
    folder, size = Path(sys.argv[1]), int(sys.argv[2]) * MIB
    made = {}
    with open(folder / "inputs", "w") as table:
        for name, kind, make in INPUTS:
            path = folder / f"{make.__name__}.bin"
            if path not in made:
                made[path] = path.write_bytes(make(size))
            table.write(f"{path}\t{kind}\t{name}\n")
    longest = recording(256 * MIB)
    with open(folder / "growth", "w") as table:
        for mib in (1, 16, 64, 256):
            path = folder / f"recording-{mib}.bin"
            path.write_bytes(longest[:mib * MIB])
            table.write(f"{path}\ttuples\t{mib}\n")


main()
