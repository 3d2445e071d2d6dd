"""`sample`: a large world that is made from a number, in memory."""

from harness import needs

WORDS = (
    "mods",
    "files",
    "winners",
    "override",
    "rule",
    "position",
    "pairs",
    "saved",
    "folders",
    "changes",
    "plain",
)
COUNTS_OF_7 = (27, 2700, 1400, 1, 99, 1200, 24, 100, 7, 0, 100)
COUNTS_OF_100 = (120, 12000, 6050, 5, 545, 5400, 108, 435, 30, 0, 435)


def _lines(counts):
    return [f"{word} {count}" for word, count in zip(WORDS, counts)]


@needs("sample")
def a_sample_is_counted_and_nothing_is_touched(world):
    world.run("sample", "7").prints(*_lines(COUNTS_OF_7)).ends(0)
    world.holds(".")


@needs("sample")
def a_large_sample_is_counted(world):
    world.run("sample", "100").prints(*_lines(COUNTS_OF_100)).ends(0)


# Each mod has its rules and its files by the number alone.
@needs("sample")
def numbers_with_zeros_in_front_are_the_same(world):
    world.run("sample", "--", "007").prints(*_lines(COUNTS_OF_7)).ends(0)


@needs("sample")
def a_number_is_decimal_digits_within_64_bits(world):
    for words in [[], [""], ["x"], ["-1"], ["+1"], ["1.5"], [str(2**64)], ["7", "8"]]:
        world.run("sample", *words).prints("usage").ends(2)


@needs("batch", "sample")
def a_sample_may_be_a_line_of_a_batch(world):
    world.two_mods()
    run = world.run("batch", stdin=b"order\nsample\t7\norder\n")
    run.prints("a", "b", *_lines(COUNTS_OF_7), "a", "b").ends(0)
