"""AES-128, AES-CMAC, the join-request and the uplink of LoRaWAN 1.1, for scripts that make input for lwdesk.

Plain Python with no package beside it, and independent of the program.
"""

import struct


def _tables():
    product, power = [0] * 256, 1
    log, exp = [0] * 256, [0] * 512
    for i in range(255):
        exp[i] = exp[i + 255] = power
        log[power] = i
        power ^= (power << 1) ^ (0x11B if power & 0x80 else 0)
        power &= 0xFF
    sbox = [0] * 256
    for b in range(256):
        inverse = 0 if b == 0 else exp[255 - log[b]]
        s = 0x63
        for k in range(5):
            s ^= ((inverse << k) | (inverse >> (8 - k))) & 0xFF
        sbox[b] = s
    xtime = lambda a: ((a << 1) ^ (0x1B if a & 0x80 else 0)) & 0xFF
    words = []
    for b in range(256):
        s = sbox[b]
        words.append((xtime(s) << 24) | (s << 16) | (s << 8) | (xtime(s) ^ s))
    rotated = [words]
    for _ in range(3):
        rotated.append([((w >> 8) | (w << 24)) & 0xFFFFFFFF for w in rotated[-1]])
    return sbox, rotated


SBOX, WORDS = _tables()


def expand(key):
    """The 44 words of the key schedule."""
    w = list(struct.unpack(">4I", key))
    constant = 1
    for i in range(4, 44):
        t = w[i - 1]
        if i % 4 == 0:
            t = ((t << 8) | (t >> 24)) & 0xFFFFFFFF
            t = (SBOX[t >> 24] << 24) | (SBOX[t >> 16 & 255] << 16) | (SBOX[t >> 8 & 255] << 8) | SBOX[t & 255]
            t ^= constant << 24
            constant = (constant << 1) ^ (0x11B if constant & 0x80 else 0)
        w.append(w[i - 4] ^ t)
    return w


def encrypt(w, block):
    """One block under an expanded key."""
    a, b, c, d = struct.unpack(">4I", block)
    a, b, c, d = a ^ w[0], b ^ w[1], c ^ w[2], d ^ w[3]
    t0, t1, t2, t3 = WORDS
    for r in range(4, 40, 4):
        a, b, c, d = (
            t0[a >> 24] ^ t1[b >> 16 & 255] ^ t2[c >> 8 & 255] ^ t3[d & 255] ^ w[r],
            t0[b >> 24] ^ t1[c >> 16 & 255] ^ t2[d >> 8 & 255] ^ t3[a & 255] ^ w[r + 1],
            t0[c >> 24] ^ t1[d >> 16 & 255] ^ t2[a >> 8 & 255] ^ t3[b & 255] ^ w[r + 2],
            t0[d >> 24] ^ t1[a >> 16 & 255] ^ t2[b >> 8 & 255] ^ t3[c & 255] ^ w[r + 3],
        )
    s = SBOX
    out = []
    for x, (p, q, u, v) in enumerate(((a, b, c, d), (b, c, d, a), (c, d, a, b), (d, a, b, c))):
        word = (s[p >> 24] << 24) | (s[q >> 16 & 255] << 16) | (s[u >> 8 & 255] << 8) | s[v & 255]
        out.append(word ^ w[40 + x])
    return struct.pack(">4I", *out)


def _doubled(block):
    n = int.from_bytes(block, "big") << 1
    if n >> 128:
        n = (n & ((1 << 128) - 1)) ^ 0x87
    return n.to_bytes(16, "big")


class Key:
    """A key with its CMAC subkeys."""

    def __init__(self, key):
        self.words = expand(key)
        self.k1 = _doubled(encrypt(self.words, bytes(16)))
        self.k2 = _doubled(self.k1)

    def encrypt(self, block):
        return encrypt(self.words, block)

    def cmac(self, text):
        count = max(1, (len(text) + 15) // 16)
        last = text[16 * (count - 1):]
        if len(last) == 16:
            last = bytes(x ^ y for x, y in zip(last, self.k1))
        else:
            last = bytes(x ^ y for x, y in zip((last + b"\x80").ljust(16, b"\0"), self.k2))
        chain = bytes(16)
        for i in range(count - 1):
            chain = self.encrypt(bytes(x ^ y for x, y in zip(chain, text[16 * i:16 * i + 16])))
        return self.encrypt(bytes(x ^ y for x, y in zip(chain, last)))


def join_request(key, join_eui, dev_eui, dev_nonce):
    """The 23 bytes of a join-request, in hexadecimal (6.2.2)."""
    text = b"\0" + struct.pack("<QQH", join_eui, dev_eui, dev_nonce)
    return (text + key.cmac(text)[:4]).hex()


def session_key(key, kind, join_nonce, join_eui, dev_nonce):
    """FNwkSIntKey (kind 1) or SNwkSIntKey (3) of a join, under the NwkKey (6.2.5)."""
    text = bytes([kind]) + struct.pack("<I", join_nonce)[:3] + struct.pack("<QH", join_eui, dev_nonce)
    return Key(key.encrypt(text + bytes(2)))


def uplink(f, s, addr, count, payload):
    """An unconfirmed uplink on channel 0 at data rate 0, in hexadecimal (4.3, 4.4)."""
    text = b"\x40" + struct.pack("<IBHB", addr, 0, count % 65536, 1) + payload
    tail = b"\0" + struct.pack("<IIBB", addr, count, 0, len(text)) + text
    block = b"\x49\0\0\0\0" + tail
    return (text + s.cmac(block)[:2] + f.cmac(block)[:2]).hex()
