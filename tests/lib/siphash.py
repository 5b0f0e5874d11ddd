"""SipHash-1-3 with keys 0: one round for each word of eight bytes, three at the end."""
from struct import unpack

WORD = (1 << 64) - 1
START = 0x736F6D6570736575, 0x646F72616E646F6D, 0x6C7967656E657261, 0x7465646279746573


def mixed(state, words, rounds):
    """The state after these words."""
    a, b, c, d = state
    for word in words:
        d ^= word
        for _ in range(rounds):
            a = (a + b) & WORD
            b = ((b << 13) & WORD | b >> 51) ^ a
            a = (a << 32) & WORD | a >> 32
            c = (c + d) & WORD
            d = ((d << 16) & WORD | d >> 48) ^ c
            a = (a + d) & WORD
            d = ((d << 21) & WORD | d >> 43) ^ a
            c = (c + b) & WORD
            b = ((b << 17) & WORD | b >> 47) ^ c
            c = (c << 32) & WORD | c >> 32
        a ^= word
    return a, b, c, d


def siphash(data):
    end = len(data) & ~7
    last = int.from_bytes(data[end:], "little") | (len(data) & 255) << 56
    a, b, c, d = mixed(START, (*unpack(f"<{end // 8}Q", data[:end]), last), 1)
    a, b, c, d = mixed((a, b, c ^ 255, d), [0], 3)
    return a ^ b ^ c ^ d
