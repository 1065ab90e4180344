"""Some sample needs each signature, priority and extension of the registry.

The signatures are tried as formats of their own without priorities, which shows which of them a sample hits.
"""

import csv
import io
import unittest
from functools import cache

from common import FORMATS, REGISTRY, SAMPLES
from identification import identify

with_signatures = [form for form in FORMATS.values() if form.signatures]


def registry_of(records):
    text = io.StringIO()
    csv.writer(text, lineterminator="\n").writerows(records)
    return text.getvalue().encode("utf-8")


@cache
def hits():
    """Returns for each sample its format and the signatures that it hits: a format's identifier and a place."""
    signatures = [(form.puid, place) for form in with_signatures for place in range(len(form.signatures))]
    records = []
    for number, (puid, place) in enumerate(signatures):
        records.append(["F", f"s/{number}", "Signature", "", "", ""])
        for kind, sequence in zip("S" + "B" * 99, FORMATS[puid].signatures[place]):
            records.append([kind, f"s/{number}", *sequence])
    found = identify(registry_of(records), SAMPLES)
    return [
        (puid, {signatures[int(name.removeprefix("s/"))] for name in names})
        for (puid, _, _), (_, _, names) in zip(SAMPLES, found)
    ]


class Rows(unittest.TestCase):
    def test_each_signature_is_hit_by_a_file_of_its_format(self):
        seen = {signature for puid, signatures in hits() for signature in signatures if signature[0] == puid}
        for form in with_signatures:
            for place, sequences in enumerate(form.signatures):
                self.assertTrue((form.puid, place) in seen, (form.puid, sequences))

    def test_a_file_hits_no_more_than_its_format_stands_over(self):
        for puid, signatures in hits():
            others = {other for other, _ in signatures} - {puid}
            self.assertLessEqual(others, set(FORMATS[puid].below), puid)

    def test_each_priority_is_needed_by_a_file(self):
        needed = {(puid, other) for puid, signatures in hits() for other, _ in signatures}
        for form in FORMATS.values():
            for other in form.below:
                self.assertTrue((form.puid, other) in needed, (form.puid, other))

    def test_each_extension_of_a_format_with_signatures(self):
        least = {puid: content for puid, _, content in sorted(SAMPLES, key=lambda sample: -len(sample[2]))}
        samples = [(form.puid, "a." + extension, least[form.puid]) for form in with_signatures for extension in form.extensions]
        unlisted = [(form.puid, "a.unlisted", least[form.puid]) for form in with_signatures]
        bare = [(form.puid, "a", least[form.puid]) for form in with_signatures]
        found = identify(REGISTRY, samples + unlisted + bare)
        for (puid, name, _), answer in zip(samples + unlisted + bare, found):
            mismatch = name == "a.unlisted" and bool(FORMATS[puid].extensions)
            self.assertEqual(answer, ("Signature", mismatch, [puid]), name)


if __name__ == "__main__":
    unittest.main()
