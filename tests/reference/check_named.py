"""Jobs of the check that were made by hand: document 01's examples, the smallest sets that tell its errors apart, and great counts and numbers."""
import check
from check_jobs import MOST, job, kinds, on_sets
from gate_sets import END
from gates import build
from sets import B2, E2, Set, Z1, file_of, gt
from vectors import chain, spoil


def examples():
    """Document 01's, with what it says of them."""
    z1, b2, e2 = file_of(Z1), file_of(B2), file_of(E2)
    bell, h = gt(4, 1) + gt(9, 2, 1), file_of(build(Z1, (4, 1, 0)))

    def example(name, start, circuit, end, allowance, line):
        assert check.line_of(job(f"example {name}", start, circuit, end, allowance)) == line, name

    example("3: H twice", z1, gt(4, 1) * 2, z1, 1, "holds 1")
    for allowance, line in ((4, "holds 4"), (3, "undecided 3"), (0, "undecided 0"), (5, "holds 4"), (MOST, "holds 4"), (1, "undecided 1")):
        example(f"7, B {allowance}", b2, bell, e2, allowance, line)
    example("8", b2, gt(4, 1), e2, 4, "fails 1 0 0 0 0")
    example("9", z1, gt(1, 1) + gt(4, 1), h, 1, "fails 1 0 0 0")
    top = (END, 0, 0, 0)
    once, twice = (file_of(Set(1, 0, (1, 2), Z1.inner, ((1, 1, top), (2, 1, x)))) for x in ((0, 0, 0, 0), top))
    example("10: 2^30 and zero", once, gt(4, 1), z1, 1, "fails 1 0 0 0")
    example("10: 2^30 twice", twice, gt(4, 1), z1, 1, "refused 16 2 1")
    for k, line in ((63, "fails 1 0 0 0"), (64, "refused 15 2 1")):
        example(f"11: k {k}", spoil(z1, 4, bytes([k])), gt(4, 1), h, 1, line)
    example("11: k 63 and its own end set", spoil(z1, 4, b"\x3f"), gt(4, 1), spoil(h, 4, b"\x40"), 1, "holds 1")
    example("12: masks 1 and 2", spoil(b2, 28, b"\1"), bell, e2, 4, "holds 4")
    example("12: masks 1 and 3", spoil(b2, 40, b"\3"), bell, e2, 4, "refused 10 1 5")
    for count, line in ((4096, "holds 1"), (4097, "refused 11 2 0")):
        example(f"13: {count} gates", z1, gt(7, 1) * count, z1, 1, line)
        example(f"13: {count} gates, X", z1, gt(1, 1) * count, z1, 1, line)
    one = file_of(Set(1, 0, (1, 1), ((0, 1, 1, 1),), ((1, 1, (1, 0, 0, 0)),)))
    for states, line in ((128, "holds 1"), (129, "refused 4 3 0")):
        example(f"14: end set of {states} states", one, b"", file_of(chain(states)), 1, line)
    kinds["examples"] += 1


ONE, MINUS, ZERO = (1, 0, 0, 0), (-1, 0, 0, 0), (0, 0, 0, 0)
# n 1, both amplitudes by the one leaf: 1 and 1
FLAT = Set(1, 0, (1, 1), ((0, 1, 1, 1),), ((1, 1, ONE),))


def says(name, s, circuit, e, allowance, line):
    assert check.line_of(on_sets(name, s, circuit, e, allowance)) == line, name


def two_leaves(*leaves):
    """n 1, one member or more to the one root: left state 1, right state 2."""
    return Set(1, 0, (1, 2), ((0, 1, 1, 2),), leaves)


def flat(leaf, k=0):
    return Set(1, k, (1, 1), FLAT.inner, ((1, 1, leaf),))


def errors_apart():
    """The smallest sets that tell the errors of document 01 apart."""
    last = 1 << 31
    holds, fails = "holds 1", "fails 1 0 0 0"
    # the end set is |00>+|11> and |01>+|10>, by a choice of level 2; the start is |00>+|10>
    pairs = Set(2, 0, (1, 2, 2), ((0, 1, 1, 2), (1, 1, 3, 4), (1, 2, 4, 3), (2, 1, 4, 3), (2, 2, 3, 4)), ((3, 1, ONE), (4, 1, ZERO)))
    says("a mixture of pairs", Set(2, 0, (1, 1, 2), ((0, 1, 1, 1), (1, 1, 2, 3)), ((2, 1, ONE), (3, 1, ZERO))), [], pairs, 1, "fails 1 0 0 0 0")
    says("a leaf that meets a right and a wrong one", FLAT, [], two_leaves((1, 1, ONE), (2, 1, MINUS)), 1, fails)
    says("a leaf that meets a wrong and a right one", FLAT, [], two_leaves((1, 1, MINUS), (2, 1, ONE)), 1, fails)
    says("a leaf that meets two right ones", FLAT, [], two_leaves((1, 1, ONE), (2, 1, ONE)), 1, holds)
    says("back to the last choice", FLAT, [], Set(1, 0, (1, 2), ((0, 1, 1, 1), (0, last, 2, 2)), ((1, 1, MINUS), (2, 1, ONE))), 1, holds)
    says("the last choice of the leaves", FLAT, [], two_leaves((1, 1, ONE), (1, last, ONE), (2, 1, MINUS), (2, last, ONE)), 1, holds)
    says("no choice for both leaves", FLAT, [], two_leaves((1, 1, ONE), (1, last, MINUS), (2, 1, MINUS), (2, last, ONE)), 1, fails)
    says("the same numbers, k 2", FLAT, [], flat(ONE, 2), 1, fails)
    says("doubled, k 2", FLAT, [], flat((2, 0, 0, 0), 2), 1, holds)
    says("√2, k 1", FLAT, [], flat((0, 1, 0, -1), 1), 1, holds)
    says("2^30, k 60", FLAT, [], flat((END, 0, 0, 0), 60), 1, holds)
    says("2^30, k 60, as the start", flat((END, 0, 0, 0), 60), [], FLAT, 1, holds)
    says("the ends of the range, k 0 and k 64", flat((END,) * 4), [], flat((END,) * 4, 64), 1, fails)
    says("zero at any k", flat(ZERO), [], flat(ZERO, 64), 1, holds)
    nothing = Set(1, 0, (1, 1), (), ())
    says("an end set with no member", FLAT, [], nothing, 1, fails)
    says("no member on either side", nothing, [], nothing, 1, "holds 0")
    for allowance in (0, 1, MOST):
        says(f"a start set with no member, B {allowance}", nothing, [(1, 1, 0)], FLAT, allowance, "holds 0")
    two_roots = Set(1, 0, (2, 2), ((0, 1, 2, 2), (1, 1, 3, 3)), ((2, 1, MINUS), (3, 1, ONE)))
    says("the end set's second root", FLAT, [], two_roots, 1, holds)
    says("a failure at place 2, B 1", two_roots, [], flat(MINUS), 1, "undecided 1")
    says("a failure at place 2, B 2", two_roots, [], flat(MINUS), 2, "fails 2 1 0 0")


def great_numbers():
    """Counts and roots that need more than one byte, and more than two."""
    many = Set(2, 0, (1, 1, 1), ((0, MOST, 1, 1), (1, MOST, 2, 2)), ((2, 15 << 28, ONE),))
    one = Set(2, 0, (1, 1, 1), ((0, 8, 1, 1), (1, 16, 2, 2)), ((2, 32, ONE),))
    for allowance, line in ((MOST, "holds 4096"), (4095, "undecided 4095"), (4096, "holds 4096")):
        says(f"4,096 members, B {allowance}", many, [(1, 2, 0)], one, allowance, line)
    last = Set(2, 0, (1, 1, 1), many.inner, ((2, MOST >> 1, ONE), (2, 1 << 31, MINUS)))
    says("fails at the 32nd word", last, [(3, 1, 0), (3, 1, 0)], one, MOST, "fails 32 0 0 0 31")
    # 65 roots with 1,024 members each, the last root's wrong or right
    for right, wanted in ((True, "holds 66560"), (False, "fails 65537 64 0 0")):
        s = Set(1, 0, (65, 2), tuple((q, MOST, 65 + (q == 64), 65) for q in range(65)), ((65, MOST, ONE), (66, MOST, ONE if right else MINUS)))
        says(f"65 roots, {wanted}", s, [], FLAT, MOST, wanted)
    says("65 roots, undecided before the last", s, [], FLAT, 65536, "undecided 65536")
    for roots in (256, 257, 1022):
        s = Set(1, 0, (roots, 2), tuple((q, 1, roots + (q == roots - 1), roots) for q in range(roots)), ((roots, 1, ONE), (roots + 1, 1, MINUS)))
        says(f"the last of {roots} roots fails", s, [], FLAT, MOST, f"fails {roots} {roots - 1} 0 0")
        says(f"the last of {roots} roots fails, X", s, [(1, 1, 0)], FLAT, roots, f"fails {roots} {roots - 1} 0 0")
        says(f"the last of {roots} roots is not allowed", s, [], FLAT, roots - 1, f"undecided {roots - 1}")
    e = Set(1, 0, (126, 2), tuple((q, 1 << 31, 127, 126 + (q == 125)) for q in range(126)), ((126, 1 << 31, MINUS), (127, 1 << 31, ONE)))
    says("the last of 126 roots of the end set", FLAT, [], e, 1, "holds 1")
