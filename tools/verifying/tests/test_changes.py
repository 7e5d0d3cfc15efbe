"""Values by keys that are put one after the other are those of a dict that is copied each time."""
import random
import unittest

from verifying.changes import Changes


class Alike:
    """A key with the hash of all others of its kind."""

    def __init__(self, number):
        self.number = number

    def __hash__(self):
        return 7

    def __eq__(self, other):
        return self.number == other.number


class Puts(unittest.TestCase):
    def compare(self, keys, puts):
        rng, versions = random.Random(puts), [({}, Changes())]
        for n in range(puts):
            plain, changes = versions[-1] if rng.random() < 0.9 else rng.choice(versions)
            key = rng.choice(keys)
            versions.append(({**plain, key: n}, changes.put(key, n)))
        for plain, changes in versions:
            self.assertEqual([changes.get(it) for it in keys], [plain.get(it) for it in keys])
            self.assertEqual(dict(changes.items()), plain)
            self.assertEqual(len(list(changes)), len(plain))
        for (old, before), (new, after) in zip(versions, versions[1:]):
            found = dict(after.items(before))
            self.assertTrue(found.items() <= new.items())
            self.assertTrue({it: value for it, value in new.items() if old.get(it) != value}.items() <= found.items())

    def test_old_values_stay_as_they_are(self):
        self.compare([(n,) for n in range(-40, 200)], 600)
        self.compare([(n, m) for n in range(12) for m in (-1, 0, 1 << 70)], 200)

    def test_keys_with_one_hash_are_kept_apart(self):
        self.compare([Alike(n) for n in range(40)], 100)

    def test_a_put_leaves_most_as_it_is(self):
        changes = Changes()
        for n in range(4000):
            before, changes = changes, changes.put((n,), n)
        self.assertLess(len(dict(changes.items(before))), 33)


if __name__ == "__main__":
    unittest.main()
