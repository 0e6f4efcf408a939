"""For scripts, from the rule sheet's and the requests' words: images, every block under its owner, every node over its blocks; the factor of a range, over all k;
which check refuses a share; where a connection is placed, over all anchors and blocks, and what a tidy moves; subrate messages, their bytes and what they may hold."""


def tree(connections):
    """The 128 bytes of taken nodes of (handle, k, anchor, length, ..), one for each connection."""
    leaves = set()
    for _, k, anchor, length, *_ in connections:
        for j in range(length):
            leaves.update(range((anchor + j) % 2**k, 512, 2**k))
    taken = [False] * 1024
    for b in leaves:
        taken[512 + int(f"{b:09b}"[::-1], 2)] = True
    for n in range(511, 0, -1):
        taken[n] = taken[2 * n] or taken[2 * n + 1]
    return bytes(sum(taken[8 * i + j] << j for j in range(8)) for i in range(128))


def image(connections):
    """The image of (handle, k, anchor, length, floor, ceiling, estimate), one for each, in hexadecimal."""
    little = lambda *pairs: b"".join(n.to_bytes(width, "little") for n, width in pairs)
    records = [little((2, 2), (1, 2), (len(connections), 2))]
    for h, k, a, length, floor, ceiling, e in connections:
        records.append(little((14, 2), (2, 2), (h, 1), (k, 1), (a, 2), (length, 2), (floor, 2), (ceiling, 2), (e, 4)))
    records.append(little((128, 2), (3, 2)) + tree(connections))
    return b"".join(records).hex()


def factor(smallest, largest):
    """Of all 6 × 2^k in a range of intervals, k to 8, the largest one's 2^k, or None."""
    return max((2**k for k in range(9) if smallest <= 6 * 2**k <= largest), default=None)


def refusal(f, floor, ceiling):
    """The check that refuses such a share of this factor, 5 or after it 20, or None."""
    if floor == 0 or ceiling < floor or ceiling > f:
        return 5
    return 20 if 2 * ceiling > f else None


def blocks(k, anchor, length):
    """The blocks b among the 512 that belong to such a connection: (b - A) mod F is less than L."""
    return {b for b in range(512) if (b - anchor) % 2**k < length}


def first_open(connections, k, run):
    """The first anchor, by the numbers of their nodes, whose whole run belongs to none of the connections, or None."""
    taken = set().union(*(blocks(*each[1:4]) for each in connections))
    for node in range(2**k, 2 ** (k + 1)):
        anchor = sum(2**i for i in range(k) if node & 2 ** (k - 1 - i))
        if not taken & blocks(k, anchor, run):
            return anchor
    return None


def tidied(connections):
    """The connections by rising handle, each at its new anchor, or None where one finds none."""
    placed = []
    for handle, k, _, length, *others in sorted(connections, key=lambda each: (2 ** each[1], each[0])):
        anchor = first_open(placed, k, length)
        if anchor is None:
            return None
        placed.append((handle, k, anchor, length, *others))
    return sorted(placed)


def moves(before, after):
    """Handle, old anchor and new anchor of each connection whose anchor differs, by rising handle."""
    return [(old[0], old[2], new[2]) for old, new in zip(sorted(before), sorted(after)) if old[2] != new[2]]


def message(word, *numbers):
    """The bytes of a default, a request or a change with these numbers, in hexadecimal."""
    pairs = lambda numbers: b"".join(n.to_bytes(2, "little") for n in numbers).hex()
    if word == "change":
        status, *others = numbers
        return f"3e0c23{status:02x}" + pairs(others)
    return {"default": "7d200a", "request": "7e200c"}[word] + pairs(numbers)


def allowed(word, *numbers):
    """Whether the Core Specification allows such a message. With a status other than 0 it allows every one."""
    if word == "change":
        status, handle, top, latency, continuation, timeout = numbers
        bottom = top
    elif word == "request":
        status, (handle, bottom, top, latency, continuation, timeout) = 0, numbers
    else:
        status, handle, (bottom, top, latency, continuation, timeout) = 0, 0, numbers
    alone = handle <= 3839 and 1 <= bottom <= 500 and 1 <= top <= 500 and latency <= 499 and continuation <= 499 and 10 <= timeout <= 3200
    return status != 0 or (alone and bottom <= top and top * (latency + 1) <= 500 and continuation < top)
