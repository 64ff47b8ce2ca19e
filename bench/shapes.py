"""How many blocks a pass seals and opens: by the slots of its table, the rows of a block, the rows that may be open, and how
many rows are selected (of a join, by the slots of its left table). Other scripts import it; by itself it runs nothing. It
needs python3 alone."""

DEPTH = 5


def blocks(pack, n):
    return -(-n // pack)


def buffered(pack, rows):
    """How many blocks may be kept beside the two that are open."""
    return (rows - 2 * pack) // pack


def count(n, pack, rows, k):
    return 0, blocks(pack, n)


def insert(n, pack, rows, k):
    return blocks(pack, n), 2 * blocks(pack, n)


def rewrite(n, pack, rows, k):
    return blocks(pack, n), blocks(pack, n)


def large(n, pack, rows, k):
    return 2 * blocks(pack, n), 2 * blocks(pack, n)


def small(n, pack, rows, k):
    results = blocks(pack, k)
    return results, blocks(buffered(pack, rows), results) * blocks(pack, n)


def continuous(n, pack, rows, k):
    return blocks(pack, k) + n, blocks(pack, n) + n


def hashed(n, pack, rows, k):
    return k * DEPTH + 2 * DEPTH * n, blocks(pack, n) + 2 * DEPTH * n


def join(n, pack, rows, k):
    chunks = blocks(buffered(pack, rows), blocks(pack, k))
    return chunks * blocks(pack, n), blocks(pack, k) + chunks * blocks(pack, n)
