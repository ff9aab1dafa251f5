"""Numbers whose hashes collide, by the hasher of the kit's hash tables, which has a fixed seed. A file that names such numbers would
make a program slow that hashes what a file chooses."""

SEED, FACTOR, WORD = 0x243F6A8885A308D3, 0x9E3779B97F4A7C15, 2**64


def fed(state, number):
    """The state of the hasher behind a number of eight bytes."""
    product = (state ^ number) * (FACTOR ^ 16)
    return product % WORD ^ product // WORD


def hashed(numbers, state=SEED):
    """The hash of a key of several numbers."""
    for number in numbers:
        state = fed(state, number)
    return (state ^ state >> 32) % 2**32


def colliding(choices, count, front=()):
    """So many of the choices: those whose hashes, behind the numbers in front, begin in the first groups of a table."""
    state = SEED
    for number in front:
        state = fed(state, number)
    return sorted(choices, key=lambda choice: hashed((choice,), state) % 2**14)[:count]
