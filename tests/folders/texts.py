"""Texts that are no state texts, each with the number of its first wrong line, and state texts, with None."""
from folders.state_text import read

E = b"473a0f4c3be8a93681a267e3b1e9a7dcda1185436fe141f7749120a303721813"
F = b"6ef19b41225c5369f1c104d45d8d85efa9b057b53b14b4b9b939dd74decc5321"
OWN = b"refs/namespaces/alice/refs/namespaces/r/"


def ref(name, target=E, space=OWN):
    return b"ref " + target + b" " + space + name


def see(name):
    return b"see " + name


def head(name=b"refs/heads/main", space=OWN):
    return b"head " + space + name


HEAD, NEW, LAST = b"forkhost state 1", b"forkhost state 2", b"end"
ALICE, BOB = b"tenant alice 1000", b"tenant bob 1000"
A, B = ref(b"refs/heads/a"), ref(b"refs/heads/b")

# A state text of each version by its lines.
LINES = [HEAD, ALICE, b"repo r", ref(b"refs/tags/e"), see(E), BOB, LAST]
WHOLE = b"\n".join([*LINES, b""])
OFFERED = [b"offer bob r", head(b"refs/heads/x"), ref(b"refs/tags/e")]
WHOLE_2 = b"\n".join([NEW, ALICE, b"repo r", head(), ref(b"refs/tags/e"), see(E), *OFFERED, BOB, LAST, b""])


def text(*lines):
    """The lines between the first and the last, in version 1."""
    return b"\n".join([HEAD, *lines, LAST, b""])


def two(*lines):
    """And in version 2."""
    return b"\n".join([NEW, *lines, LAST, b""])


def many(form, count):
    return [form % number for number in range(count)]


ENDS = [
    (1, b""),
    (1, b"\n"),
    (1, HEAD),
    (2, HEAD + b"\n"),
    (2, HEAD + b"\nend"),
    (None, HEAD + b"\nend\n"),
    (3, HEAD + b"\nend\n\n"),
    (3, HEAD + b"\nend\nx"),
    (3, HEAD + b"\nend\nend\n"),
    (3, HEAD + b"\nend\n\0"),
    (None, NEW + b"\nend\n"),
    (2, NEW + b"\n"),
    (3, NEW + b"\nend\n\n"),
    (1, b"forkhost state 0\nend\n"),
    (1, b"forkhost state 3\nend\n"),
    (1, b"forkhost state 02\nend\n"),
    (1, b"forkhost state 12\nend\n"),
    (1, b"forkhost state 1 \nend\n"),
    (1, b"forkhost state 01\nend\n"),
    (1, b"\xef\xbb\xbfforkhost state 1\nend\n"),
    (2, HEAD + b"\n\nend\n"),
    (2, HEAD + b"\n end\n"),
    (2, HEAD + b"\nend \n"),
    (2, HEAD + b"\nEND\n"),
    (None, WHOLE),
    (None, WHOLE_2),
    (7, WHOLE[:-1]),
    (7, WHOLE[:-4]),
    (8, WHOLE + b"\n"),
    (1, WHOLE.replace(b"\n", b"\r\n")),
    (1, WHOLE.replace(b"\n", b"\0")),
]

ORDERS = [
    (3, text(b"tenant bob 1", b"tenant alice 1")),
    (3, text(b"tenant alice 1", b"tenant alice 1")),
    (3, text(b"tenant alice 1", b"tenant alice 2")),
    (None, text(b"tenant a 1", b"tenant a- 1", b"tenant a0 1", b"tenant aa 1")),
    (3, text(b"tenant aa 1", b"tenant a 1")),
    (4, text(ALICE, b"repo b", b"repo a")),
    (4, text(ALICE, b"repo a", b"repo a")),
    (None, text(ALICE, b"repo a", b"repo b", BOB, b"repo a")),
    (5, text(ALICE, b"repo r", B, A)),
    (5, text(ALICE, b"repo r", A, A)),
    (5, text(ALICE, b"repo r", A, ref(b"refs/heads/a", F))),
    (4, text(ALICE, see(F), see(E))),
    (4, text(ALICE, see(E), see(E))),
    (None, text(ALICE, see(E), see(F))),
]

PLACES = [
    (4, text(ALICE, see(E), b"repo r")),
    (5, text(ALICE, b"repo r", see(E), A)),
    (2, text(b"repo r")),
    (2, text(see(E))),
    (2, text(A)),
    (3, text(ALICE, A)),
    (5, text(ALICE, b"repo r", BOB, A)),
    (3, text(ALICE, HEAD)),
    (2, text(HEAD)),
    (3, text(ALICE, b"")),
    (3, text(ALICE, b"# nothing")),
]

CONFLICTS = [
    (5, text(ALICE, b"repo r", A, ref(b"refs/heads/a/b"))),
    (6, text(ALICE, b"repo r", A, ref(b"refs/heads/a-b"), ref(b"refs/heads/a/b"))),
    (6, text(ALICE, b"repo r", A, ref(b"refs/heads/a.b"), ref(b"refs/heads/a/b/c/d"))),
    (7, text(ALICE, b"repo r", A, ref(b"refs/heads/a!/b"), ref(b"refs/heads/a-/b"), ref(b"refs/heads/a/b"))),
    (None, text(ALICE, b"repo r", A, ref(b"refs/heads/a-b"), ref(b"refs/heads/ab/c"))),
    (None, text(ALICE, b"repo r", ref(b"refs/heads/a/b"), ref(b"refs/heads/a/b-"), ref(b"refs/heads/a/c"))),
]

BAD_REFERENCES = [
    *(b"", b"HEAD", b"heads/a", b"refs", b"refs/", b"refs//a", b"refs/heads/", b"Refs/heads/a"),
    *(b"refs/heads/a.lock", b"refs/heads/a.lock/b", b"refs/heads/.a", b"refs/heads/a..b", b"refs/heads/a."),
    *(b"refs/heads/a" + byte + b"b" for byte in (b" ", b"\t", b"\x7f", b"~", b"^", b":", b"?", b"*", b"[", b"\\")),
    b"refs/heads/a@{b",
    b"refs/" + b"a" * 251,
]
RIGHT_REFERENCES = [
    *(OWN + b"refs/heads/a", b"refs/@", b"refs/-a", b"refs/heads/@", b"refs/heads/a{"),
    *(b"refs/heads/a.lockx", b"refs/heads/\x80\xff"),
    b"refs/" + b"a" * 250,
]
BAD_SPACES = [
    *(b"", b"refs/namespaces/alice/", b"refs/namespaces/bob/refs/namespaces/r/"),
    *(b"refs/namespaces/alice/refs/namespaces/s/", OWN + b"/", OWN[:-1], OWN[:-1] + b" "),
]
REFERENCES = [
    *((4, text(ALICE, b"repo r", ref(name))) for name in BAD_REFERENCES),
    *((None, text(ALICE, b"repo r", ref(name))) for name in RIGHT_REFERENCES),
    *((4, text(ALICE, b"repo r", ref(b"refs/heads/a", space=space))) for space in BAD_SPACES),
]

BAD_TENANTS = [
    *(b"", b" ", b" 0", b" a", b" a ", b"  0", b"  a 0", b" Alice 0", b" -a 0", b" _a 0", b" a/b 0", b" @host 0"),
    *(b" " + b"a" * 33 + b" 0", b" a 0 0", b" a\t0"),
]
BAD_REPOSITORIES = [
    *(b"", b" ", b" r s", b" r/s", b" R", b" -r", b" _r", b"  r", b" r ", b" .", b" " + b"r" * 65),
]
BAD_SIGHTS = [
    *(b"see", b"see ", see(E.upper()), see(E[:-1]), see(E + b"0"), see(E + b" "), b"see  " + E),
    *(see(E[:-1] + b"g"), b"see\t" + E, b"See " + E),
]
BAD_TARGETS = [
    *(b"ref", b"ref ", b"ref " + E, b"ref " + E + b" ", b"ref " + E + b"  " + OWN + b"refs/heads/a"),
    *(b"ref  " + E + b" " + OWN + b"refs/heads/a", ref(b"refs/heads/a", E.upper()), ref(b"refs/heads/a", E[:-1])),
    *(ref(b"refs/heads/a", E + b"0"), ref(b"refs/heads/a", b""), A + b" "),
]
NAMES = [
    *((2, text(b"tenant" + rest)) for rest in BAD_TENANTS),
    *((3, text(ALICE, b"repo" + rest)) for rest in BAD_REPOSITORIES),
    *((3, text(ALICE, line)) for line in BAD_SIGHTS),
    *((4, text(ALICE, b"repo r", line)) for line in BAD_TARGETS),
    (None, text(b"tenant a-_9 0")),
    (None, text(b"tenant 0 0")),
    (None, text(b"tenant " + b"a" * 32 + b" 0")),
    (None, text(ALICE, b"repo " + b"r" * 64)),
    (None, text(ALICE, b"repo 9_-")),
]

BAD_LIMITS = [
    *(b"00", b"01", b"+1", b"-1", b"1 ", b" 1", b"1x", b"0x1", b"1_0", b"1.0", b"1e3", b"\xd9\xa1"),
    *(b"1099511627777", b"9999999999999", b"18446744073709551615", b"18446744073709551616"),
    *(b"18446744073709551617", b"9" * 26, b"1" * 400),
]
LIMITS = [
    *((2, text(b"tenant a " + limit)) for limit in BAD_LIMITS),
    *((None, text(b"tenant a " + limit)) for limit in (b"0", b"1", b"1099511627776")),
]

COUNTS = [
    (None, text(*many(b"tenant t%02d 1", 64))),
    (66, text(*many(b"tenant t%02d 1", 65))),
    (None, text(ALICE, *many(b"repo r%03d", 256))),
    (259, text(ALICE, *many(b"repo r%03d", 257))),
    (None, text(ALICE, b"repo r", *many(ref(b"refs/heads/b%04d"), 4096))),
    (4100, text(ALICE, b"repo r", *many(ref(b"refs/heads/b%04d"), 4097))),
    (None, text(ALICE, b"repo r", *many(ref(b"refs/heads/b%04d"), 4096), b"repo s", BOB)),
]

# What comes after a line that begins a repository or an offer.
BAD_HEADS = [
    *map(head, (b"", b"refs/tags/v", b"refs/heads", b"refs/heads/", b"HEAD", b"refs/heads/a..b", b"refs/heads/a ")),
    *(head(space=space) for space in BAD_SPACES),
    *(A, see(E), BOB, LAST, b"repo s", b"offer bob r", b"head", b"head ", b"Head" + head()[4:], head() + b"\r"),
    head(b"refs/heads/" + b"a" * 245),
]
RIGHT_HEADS = [b"refs/heads/main", b"refs/heads/a/b", b"refs/heads/\x80", b"refs/heads/" + b"a" * 244]
HEADS = [
    *((4, two(ALICE, b"repo r", line)) for line in BAD_HEADS),
    *((4, two(ALICE, b"offer bob r", line)) for line in BAD_HEADS),
    *((None, two(ALICE, b"repo r", head(name), B, see(E), BOB)) for name in RIGHT_HEADS),
    *((None, two(ALICE, b"offer bob r", head(name), B, BOB)) for name in RIGHT_HEADS),
    (5, two(ALICE, b"repo r", head(), head())),
    (6, two(ALICE, b"repo r", head(), A, head())),
    (3, two(ALICE, head())),
    (2, two(head())),
    (4, two(ALICE, b"repo r", b"")),
    (4, text(ALICE, b"repo r", head())),
    (3, text(ALICE, b"offer bob r")),
    (6, two(ALICE, b"repo r", head(), B, A)),
]

R = (b"offer bob r", head())
IN_S = b"refs/namespaces/alice/refs/namespaces/s/"
BAD_OFFERS = [
    *(b"", b" ", b" bob", b" bob ", b"  bob r", b" bob  r", b" bob r ", b" bob r s", b" Bob r", b" bob R"),
    *(b" @host r", b" bob r/s", b" alice r", b" " + b"b" * 33 + b" r", b" bob " + b"r" * 65, b"\tbob r"),
]
OFFERS = [
    *((3, two(ALICE, b"offer" + rest)) for rest in BAD_OFFERS),
    (2, two(b"offer bob r")),
    (None, two(ALICE, *R)),
    (None, two(ALICE, see(E), *R, A, B, BOB)),
    (None, two(ALICE, *R, b"offer bob s", head(space=IN_S), b"offer carol r", head())),
    (5, two(ALICE, *R, *R)),
    (7, two(ALICE, *R, b"offer bob s", head(space=IN_S), *R)),
    (5, two(ALICE, *R, b"offer bob a")),
    (5, two(ALICE, *R, b"offer bo s")),
    (None, two(ALICE, b"offer bo s", head(space=IN_S), *R, b"offer bob- r", head())),
    (5, two(ALICE, b"offer bob- r", head(), *R)),
    (5, two(ALICE, *R, see(E))),
    (5, two(ALICE, *R, b"repo r")),
    (6, two(ALICE, *R, B, A)),
    (6, two(ALICE, *R, A, ref(b"refs/heads/a/b"))),
    (5, two(ALICE, *R, ref(b"refs/heads/a", space=b"refs/namespaces/bob/refs/namespaces/r/"))),
    (5, two(ALICE, *R, ref(b"refs/heads/a", space=IN_S))),
]


def offers(count):
    """Lines of this many offers, two a piece."""
    for number in range(count):
        yield from (b"offer b%03d r" % number, head())


COUNTS_2 = [
    (None, two(ALICE, *offers(256), BOB)),
    (515, two(ALICE, *offers(257))),
    (None, two(ALICE, *R, *many(ref(b"refs/heads/b%04d"), 4096))),
    (4101, two(ALICE, *R, *many(ref(b"refs/heads/b%04d"), 4097))),
    (4101, two(ALICE, b"repo r", head(), *many(ref(b"refs/heads/b%04d"), 4097))),
]

ROWS = ENDS + ORDERS + PLACES + CONFLICTS + REFERENCES + NAMES + LIMITS + COUNTS + HEADS + OFFERS + COUNTS_2
WHOLES = (WHOLE, WHOLE_2)


def fronts():
    return [whole[:length] for whole in WHOLES for length in range(len(whole))]


def turned():
    """One bit of a byte is turned: its least, or that which parts letters."""
    places = [(whole, at) for whole in WHOLES for at in range(len(whole))]
    return [whole[:at] + bytes([whole[at] ^ bit]) + whole[at + 1 :] for whole, at in places for bit in (1, 32)]


def moved(lines):
    """A line is gone, comes twice, or takes the place of another."""
    places = range(len(lines))
    yield from (lines[:at] + lines[at + 1 :] for at in places)
    yield from (lines[:to] + [lines[at]] + lines[to:] for at in places for to in places)
    for at in places:
        for other in places[at + 1 :]:
            yield lines[:at] + [lines[other]] + lines[at + 1 : other] + [lines[at]] + lines[other + 1 :]


def rows(lines):
    """All rows; those that are made from the lines of a text have the number that the reader here says."""
    yield from ROWS
    for made in [*fronts(), *turned(), *(b"\n".join([*other, b""]) for other in moved(lines))]:
        yield read(made)[1], made
