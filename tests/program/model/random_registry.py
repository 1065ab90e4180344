#!/usr/bin/env -S python3 -S -B
"""Writes a registry of some formats that often match one another's files: `random_registry.py SEED COUNT`."""

import sys
from random import Random

ENDINGS = ["txt", "MSG", "abc", "alp", "let", "q"]
NAMES = ["Plain", '"A ""quoted"" name, with a comma"', "Größe", "N"]


def byte(random):
    return random.choice("61 62 63 64".split())


def element(random):
    low, high = sorted([byte(random), byte(random)])
    return random.choice(
        [
            byte(random), byte(random), byte(random), byte(random) + byte(random), "??", "*",
            "{%d}" % random.randint(0, 3), "{%d-%d}" % (random.randint(0, 2), random.randint(2, 5)),
            "{%d-*}" % random.randint(0, 4), f"[{low}:{high}]", f"[!{byte(random)}]",
            f"({byte(random)}|{byte(random)}{byte(random)})", f"({byte(random)})",
        ]
    )


def pattern(random):
    elements = [element(random) for _ in range(random.randint(0, 2))]
    return "".join(elements + [byte(random)] + [element(random)] * random.randint(0, 1))


def sequence(random, kind, puid):
    least = random.choice([0, 0, 0, 1, 3])
    most = least + random.choice([0, 2, 9, 30])
    return f"{kind},{puid},{random.choice(['BOF', 'EOF'])},{least},{most},{pattern(random)}"


def main(seed, count):
    sys.stdout.reconfigure(encoding="utf-8")
    random = Random(int(seed))
    puids = [f"r/{number}" for number in range(1, int(count) + 1)]
    for puid in puids:
        print(f"F,{puid},{random.choice(NAMES)},{random.choice(['', '1.0'])},{random.choice(['', 'text/plain'])},")
        for _ in range(random.choice([0, 1, 1, 2])):
            print(f"E,{puid},{random.choice(ENDINGS)},,,")
        for _ in range(random.choice([0, 1, 1, 2])):
            print(sequence(random, "S", puid))
            for _ in range(random.choice([0, 0, 0, 1, 2])):
                print(sequence(random, "B", puid))
    for _ in range(int(count)):
        print("P,%s,%s,,," % tuple(random.sample(puids, 2)))


main(*sys.argv[1:])
