"""Random messages: listings of random templates and values, and the octets of them."""
import os
import subprocess

from bufr import tables, versions, wanted
from bufr.programs import launcher
from conftest import run

VERSIONS = (0, 7, 13, 14, 15, 16, 17, 18, 19, 30, 46)
KNOWN = {}


def tables_of(version):
    chosen = versions.version_of(version)
    if chosen not in KNOWN:
        KNOWN[chosen] = tables.Tables(*versions.table_paths(chosen))
    return KNOWN[chosen]


def template(rng, known, depth=0):
    """Random descriptors: elements, operators around them, and replications, fixed or delayed."""
    elements = KNOWN.setdefault(("elements", id(known)), [key for key, each in known.elements.items() if each.width <= 32 or
                                                          each.unit == tables.TEXT_UNIT and each.width < 500])
    found = []
    for _ in range(rng.randint(1, 6)):
        kind = rng.random()
        if kind < 0.15 and depth < 2:
            body = template(rng, known, depth + 1)
            if len(body) < 30:
                found += [f"1{len(body):02}000", rng.choice(["031000", "031001", "031002"]), *body] if rng.random() < 0.6 else \
                    [f"1{len(body):02}{rng.randint(1, 3):03}", *body]
        elif kind < 0.25:
            found += ["201130", rng.choice(["012101", "010004", "005001"]), "201000"]
        elif kind < 0.3:
            found += [f"205{rng.randint(1, 9):03}"]
        elif kind < 0.35:
            found += [f"206{rng.randint(1, 30):03}", "063255"]
        elif kind < 0.4:
            found += ["207001", "012101", "207000"]
        elif kind < 0.45:
            found += ["202129", "012101", "202000"]
        else:
            found.append(rng.choice(elements))
    return found or ["012101"]


def value(rng, field):
    """A random value of a field, as listings spell it."""
    if field.is_factor:
        return str(rng.randint(0, min(3, (1 << field.width) - 1)))
    if wanted.can_be_missing(field) and rng.random() < 0.2:
        return "missing"
    if wanted.is_text(field):
        octets = [rng.choice([32, 0, 34, 92, 65, 90, 255, rng.randrange(128)]) for _ in range(field.width // 8)]
        octets[0] = 65
        return '"' + "".join(chr(octet) if 32 <= octet <= 126 and octet not in (34, 92) else f"\\{octet:02x}" for octet in octets) + '"'
    most = (1 << field.width) - 1 - wanted.can_be_missing(field)
    raw = rng.choice([0, most, rng.randint(0, most), rng.randint(0, most)])
    return wanted.spelt(raw + field.reference, field.scale)


def listing(rng):
    """The listing of a random message."""
    version = rng.choice(VERSIONS)
    known = tables_of(version)
    descriptors = template(rng, known)
    counts = []
    lines = ["message", f"section1 {rng.randrange(300)} {rng.randrange(9)} {rng.randrange(4)} {rng.randrange(9)} {rng.randrange(255)} "
             f"{rng.randrange(9)} {version} {rng.randrange(3)}",
             f"time {rng.randrange(1990, 2030)} {rng.randrange(13)} {rng.randrange(32)} {rng.randrange(24)} 0 {rng.randrange(60)}"]
    if rng.random() < 0.2:
        lines.append("local1 " + rng.choice(["00", "0aff"]))
    if rng.random() < 0.2:
        lines.append(rng.choice(["section2", "section2 0102ff"]))
    is_compressed = rng.random() < 0.3
    lines.append("flags" + rng.choice([" observed", ""]) + " compressed" * is_compressed)
    lines.append("descriptors " + " ".join(descriptors))
    shape = None
    for _ in range(rng.randint(0, 3)):
        lines.append("subset")
        here = iter(shape or [])
        made = []
        for field in known.fields(descriptors, lambda _factor: counts[-1]):
            said = next(here) if shape and field.is_factor else value(rng, field)
            if field.is_factor:
                counts.append(int(said))
                made.append(said)
            lines.append(f"{field.descriptor} {said}")
        # compressed subsets have the same counts
        shape = made if is_compressed else None
    return "\n".join([*lines, "end", ""])


def encoded(path):
    """What `bufr encode` writes of a listing: its status, octets and standard error."""
    done = subprocess.run(["sh", launcher(), "encode", path], capture_output=True)
    return done.returncode, done.stdout, done.stderr.decode()


def shown(path):
    """What `bufr show` prints of a file."""
    return run("sh", launcher(), "show", path)[1]


def split(octets):
    """The messages of octets that are nothing else."""
    found = []
    while octets:
        length = int.from_bytes(octets[4:7], "big")
        found.append(octets[:length])
        octets = octets[length:]
    return found


def files_of(rng, folder, count):
    """Some files with random messages and noise: the path of each, and the octets of its messages one by one."""
    path = os.path.join(folder, "listing")
    counts = [rng.randint(1, 3) for _ in range(count)]
    with open(path, "w", encoding="latin-1") as file:
        file.writelines(listing(rng) for _ in range(sum(counts)))
    status, octets, error = encoded(path)
    assert status == 0, error
    made = split(octets)
    found = []
    for number, each in enumerate(counts):
        found.append(file_of(rng, folder, number, made[:each]))
        made = made[each:]
    return found


def file_of(rng, folder, number, made):
    """A file with some messages and noise, and their octets one by one."""
    messages = []
    for octets in made:
        if rng.random() < 0.2:
            # octets behind the data, which `encode` does not write
            length = int.from_bytes(octets[4:7], "big") + 3
            data = section_4(octets)
            inner = int.from_bytes(octets[data:data + 3], "big") + 3
            octets = octets[:4] + length.to_bytes(3, "big") + octets[7:data] + inner.to_bytes(3, "big") + octets[data + 3:-4] + \
                b"\0\0\0" + octets[-4:]
        messages.append(octets)
    path = os.path.join(folder, f"{number}.bufr")
    with open(path, "wb") as file:
        file.write(b"".join(rng.choice([b"", b"noise\r\r\n"]) + octets for octets in messages))
    return path, messages


def section_4(octets):
    """The place of section 4 of a message of edition 4."""
    at = 8
    has_2 = octets[at + 9] & 0x80
    for _ in range(3 if has_2 else 2):
        at += int.from_bytes(octets[at:at + 3], "big")
    return at
