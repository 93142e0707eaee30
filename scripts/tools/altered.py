"""Alters bytes by chance, from a seed."""


def altered(rng, found, least=0, most=4):
    """Returns one to four of the byte strings in `found`, one behind the other, with `least` to `most` changes: a byte or a bit
    that is another one, some that are left out or doubled, or the end of another byte string. It is never empty."""
    bytes_ = bytearray(b"".join(rng.choice(found) for _ in range(rng.randint(1, 4))))
    for _ in range(rng.randint(least, most)):
        at = rng.randrange(len(bytes_))
        way = rng.randrange(5)
        if way == 0:
            bytes_[at] = rng.randrange(256)
        elif way == 1:
            bytes_[at] ^= 1 << rng.randrange(8)
        elif way == 2:
            del bytes_[at:at + rng.randint(1, 40)]
        elif way == 3:
            bytes_[at:at] = bytes_[at:at + rng.randint(1, 40)]
        else:
            other = rng.choice(found)
            bytes_[at:] = other[rng.randrange(len(other)):]
        if not bytes_:
            bytes_ = bytearray(b"\0")
    return bytes(bytes_)
