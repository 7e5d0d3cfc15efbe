"""Values by keys, of which each put makes new ones and leaves the old ones as they are. Most of both is shared: a tree by the bits of
the hashes of keys, so a put takes time in the logarithm of their number."""

BITS = 3
WIDTH = 1 << BITS
SMALL = 16          # a leaf with more keys is divided
MOST_BITS = 60      # so many bits of a hash are looked at


class Changes:
    """Keys with their values. A node is a dict, which is a leaf, or a tuple of nodes by the next bits of the hash."""

    __slots__ = ("root",)

    def __init__(self, root=None):
        self.root = {} if root is None else root

    def get(self, key):
        """The value at a key, or None."""
        node = self.root
        if type(node) is tuple:
            bits = hash(key)
            while type(node) is tuple:
                node, bits = node[bits % WIDTH], bits >> BITS
        return node.get(key)

    def put(self, key, value):
        """The same values, but for another one at a key."""
        return Changes(with_value(self.root, hash(key), 0, key, value))

    def items(self, besides=None):
        """The keys with their values, without those that stand in a part that is shared with others."""
        todo = [(self.root, besides.root if besides else None)]
        while todo:
            node, other = todo.pop()
            if node is other:
                continue
            if type(node) is tuple:
                todo += zip(node, other if type(other) is tuple else [None] * WIDTH)
            else:
                yield from node.items()

    def keys(self):
        return [key for key, _ in self.items()]

    def __iter__(self):
        return iter(self.keys())

    def __getitem__(self, key):
        return self.get(key)


def with_value(node, bits, used, key, value):
    """A node with another value at a key, of whose hash `bits` are left and so many are used."""
    if type(node) is tuple:
        at = bits % WIDTH
        return (*node[:at], with_value(node[at], bits >> BITS, used + BITS, key, value), *node[at + 1:])
    found = dict(node)
    found[key] = value
    if len(found) <= SMALL or used >= MOST_BITS:
        return found
    parts = [{} for _ in range(WIDTH)]
    for its, old in found.items():
        parts[(hash(its) >> used) % WIDTH][its] = old
    return tuple(parts)
