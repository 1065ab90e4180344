"""Random signature files: what the registry has of them, and what is identified by it, beside a model in Python that reads
the signature file. RANDOM_FILES is how many there are: 200, or all 2,000."""
import os
import unittest
from concurrent.futures import ThreadPoolExecutor
from random import Random

from conversions import PARTLY, convert, left_out, rows_of, unknown
from identification import identify
from random_signatures import letters, signature_file
from signature_file import read_signature_file

FILES = int(os.environ.get("RANDOM_FILES", "200"))
SIGNATURES, CONTENTS = 8, 12


class Compared:
    """A random signature file: what differs from the model, and how often a format hit and a signature was left out."""

    def __init__(self, seed):
        self.seed = seed
        self.differing = []
        self.hits, self.misses, self.signatures, self.lost = 0, 0, 0, 0
        random = Random(seed)
        text = signature_file(random, SIGNATURES)
        self.model = read_signature_file(text)
        self.status, self.registry, self.said = convert(text)
        self.lost_signatures = self.compare_left_out()
        if rows_of(self.registry, "FEP") != [*self.model.rows()]:
            self.differ("other formats, extensions or priorities")
        if unknown(self.said) != self.model.unknown:
            self.differ(f"unknown names: {unknown(self.said)}, by the model {self.model.unknown}")
        contents = [letters(random, random.randrange(40)) for _ in range(CONTENTS)]
        for limit in (65_536, random.randrange(1, 30)):
            self.compare_found(contents, limit)

    def differ(self, what):
        self.differing.append(f"seed {self.seed}: {what}")

    def compare_left_out(self):
        """Compares what standard error lists as left out, and returns the signatures of formats among that."""
        said = [row[:3] for row in left_out(self.said)]
        lost = {(puid, int(name)) for puid, kind, name in said if kind == "signature" and puid}
        for puid, form in self.model.kept.items():
            for it in form.signatures:
                self.compare_signature(puid, it, (puid, it) in lost)
        if said != self.model.lost(lost):
            self.differ(f"left out: {said}, by the model {self.model.lost(lost)}")
        if self.status != (PARTLY if said or self.model.unknown else 0):
            self.differ(f"status {self.status}")
        return lost

    def compare_signature(self, puid, number, is_lost):
        """A signature that no registry holds has to be left out, and one that certainly fits into one must not."""
        signature = self.model.signatures.get(number)
        reason = "no such signature" if signature is None else signature.reason
        if reason and not is_lost:
            self.differ(f"{puid}: signature {number} is taken: {reason}")
        if is_lost and not reason and signature.is_small:
            self.differ(f"{puid}: signature {number} is left out")
        self.signatures += 1
        self.lost += is_lost and not reason

    def compare_found(self, contents, limit):
        samples = [(None, f"{number}", content) for number, content in enumerate(contents)]
        for content, (_, _, found) in zip(contents, identify(self.registry, samples, limit)):
            wanted = self.model.find(content, limit, self.lost_signatures)
            if found != wanted:
                self.differ(f"{content!r} by {limit} is {found}, by the model {wanted}")
            self.hits += len(wanted)
            self.misses += len(self.model.kept) - len(wanted)


class RandomFiles(unittest.TestCase):
    def test_random_files(self):
        with ThreadPoolExecutor(len(os.sched_getaffinity(0))) as pool:
            compared = list(pool.map(Compared, range(FILES)))
        differing = [it for each in compared for it in each.differing]
        self.assertEqual(differing, [], "\n".join(differing[:10]))
        # the files are such that much is hit and missed, and that little is left out that might be taken
        total = lambda name: sum(getattr(it, name) for it in compared)
        self.assertGreater(total("hits"), total("misses") // 20)
        self.assertGreater(total("misses"), total("hits"))
        self.assertLess(total("lost"), total("signatures") // 10)


if __name__ == "__main__":
    unittest.main()
