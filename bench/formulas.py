"""The formulas of LoRaWAN 1.1 and of its regional parameters for EU868, over the Python package cryptography.

Written from the standard's text, for the second desk (second_desk.py) and the simulated device (device.py), and independent of lwdesk.
Keys and frames are bytes, EUIs, NetIDs and addresses numbers. A seed of session keys is (JoinNonce, JoinEUI, DevNonce or RJcount).
"""

from cryptography.hazmat.primitives.ciphers import Cipher, algorithms, modes
from cryptography.hazmat.primitives.cmac import CMAC
from cryptography.hazmat.primitives.keywrap import aes_key_unwrap, aes_key_wrap

JOIN = 255  # the byte of a join in the MIC of its accept; a rejoin has its type there


def enc(key, block):
    e = Cipher(algorithms.AES(key), modes.ECB()).encryptor()
    return e.update(block) + e.finalize()


def dec(key, block):
    d = Cipher(algorithms.AES(key), modes.ECB()).decryptor()
    return d.update(block) + d.finalize()


def cmac(key, text):
    c = CMAC(algorithms.AES(key))
    c.update(text)
    return c.finalize()


def wrapped(kek, key):
    return aes_key_wrap(kek, key)


def unwrapped(kek, text):
    return aes_key_unwrap(kek, text)


def le(n, size):
    return n.to_bytes(size, "little")


def number_at(frame, at, size):
    return int.from_bytes(frame[at : at + size], "little")


def pad(text):
    return text + bytes(16 - len(text))


# Keys.


def js_int(nwk, dev):
    return enc(nwk, pad(b"\x06" + le(dev, 8)))


def js_enc(nwk, dev):
    return enc(nwk, pad(b"\x05" + le(dev, 8)))


def session_key(root, kind, seed):
    nonce, join_eui, counter = seed
    return enc(root, pad(bytes([kind]) + le(nonce, 3) + le(join_eui, 8) + le(counter, 2)))


def f_key(nwk, seed):
    return session_key(nwk, 1, seed)


def s_key(nwk, seed):
    return session_key(nwk, 3, seed)


def e_key(nwk, seed):
    return session_key(nwk, 4, seed)


def app_s_key(app, seed):
    return session_key(app, 2, seed)


# Join-requests, rejoin-requests and join-accepts.


def signed(key, text):
    return text + cmac(key, text)[:4]


def is_signed(key, frame):
    return cmac(key, frame[:-4])[:4] == frame[-4:]


def join_frame(nwk, join_eui, dev, nonce):
    return signed(nwk, b"\x00" + le(join_eui, 8) + le(dev, 8) + le(nonce, 2))


def rejoin02(s, kind, net, dev, count):
    return signed(s, bytes([192, kind]) + le(net, 3) + le(dev, 8) + le(count, 2))


def rejoin1(js_int_key, join_eui, dev, count):
    return signed(js_int_key, b"\xc0\x01" + le(join_eui, 8) + le(dev, 8) + le(count, 2))


def accept_mic(nwk, dev, kind, join_eui, counter, fields):
    return cmac(js_int(nwk, dev), bytes([kind]) + le(join_eui, 8) + le(counter, 2) + b"\x20" + fields)[:4]


def accept(nwk, dev, kind, seed, net, addr, radio):
    """The join-accept; kind is JOIN or the rejoin's type, radio (DLSettings, RxDelay, CFList)."""
    nonce, join_eui, counter = seed
    dl, delay, cf = radio
    fields = le(nonce, 3) + le(net, 3) + le(addr, 4) + bytes([dl, delay]) + cf
    text = fields + accept_mic(nwk, dev, kind, join_eui, counter, fields)
    return b"\x20" + dec(nwk if kind == JOIN else js_enc(nwk, dev), text)


def opened(nwk, dev, kind, join_eui, counter, frame):
    """The fields of a join-accept: its JoinNonce, NetID, address and radio; None where its MIC is another."""
    text = enc(nwk if kind == JOIN else js_enc(nwk, dev), frame[1:])
    fields, mic = text[:-4], text[-4:]
    if mic != accept_mic(nwk, dev, kind, join_eui, counter, fields):
        return None
    radio = (fields[10], fields[11], fields[12:])
    return number_at(fields, 0, 3), number_at(fields, 3, 3), number_at(fields, 6, 4), radio


# Data frames.


def has_data_size(frame):
    return 12 <= len(frame) <= 255 and 12 + (frame[5] & 15) <= len(frame)


def up_mic(f, s, text, count, conf, rate, channel):
    """The four bytes of an uplink's MIC over its text: two under SNwkSIntKey, two under FNwkSIntKey."""
    tail = b"\x00" + text[1:5] + le(count, 4) + bytes([0, len(text)])
    b0 = bytes([0x49, 0, 0, 0, 0]) + tail
    b1 = b"\x49" + le(conf, 2) + bytes([rate, channel]) + tail
    return cmac(s, b1 + text)[:2] + cmac(f, b0 + text)[:2]


def down_mic(s, text, count, conf):
    block = b"\x49" + le(conf, 2) + bytes([0, 0, 1]) + text[1:5] + le(count, 4) + bytes([0, len(text)])
    return cmac(s, block + text)[:4]


def down_frame(s, addr, count, confirmed=False, ack=None, pending=False, port=None, payload=b""):
    """A downlink; ack is the counter of the uplink that it acknowledges."""
    control = (32 if ack is not None else 0) | (16 if pending else 0)
    text = bytes([0xA0 if confirmed else 0x60]) + le(addr, 4) + bytes([control]) + le(count % 65536, 2)
    if port is not None:
        text += bytes([port]) + payload
    return text + down_mic(s, text, count, 0 if ack is None else ack % 65536)


def encrypted(key, addr, count, payload):
    """A downlink's payload under its key and counter, or back from there."""
    text = b""
    for i in range(0, len(payload), 16):
        block = b"\x01" + bytes(4) + b"\x01" + le(addr, 4) + le(count, 4) + bytes([0, i // 16 + 1])
        text += bytes(a ^ b for a, b in zip(payload[i : i + 16], enc(key, block)))
    return text


def full_count(last, wire):
    """The least number above the last one whose low 16 bits are those sent; None where it would pass 2^32 - 1."""
    if last is None:
        return wire
    count = next(n for n in range(last + 1, last + 65537) if n % 65536 == wire)
    return count if count < 2**32 else None


# EU868.

PAYLOAD_LIMIT = [51, 51, 51, 115, 242, 242, 242, 242]


def channels(cf):
    """The enabled channels: the three that each device has, and those of a CFList of frequencies."""
    return [0, 1, 2] + [3 + k for k in range(5) if cf and number_at(cf, 3 * k, 3)]


def first_window_rate(rate, dl):
    return max(rate - (dl >> 4 & 7), 0)


# Addresses: for each type of NetID the prefix bits, the bits of the NwkID and those of the NwkAddr.

TYPES = [(1, 6, 25), (2, 6, 24), (3, 9, 20), (4, 11, 17), (5, 12, 15), (6, 13, 13), (7, 15, 10), (8, 17, 7)]


def address_of(net, n):
    """The n-th address of a network, None where it has no so many."""
    kind = net >> 21
    prefix, id_bits, bits = TYPES[kind]
    if n >> bits:
        return None
    return ((1 << prefix) - 2) << (32 - prefix) | (net & ((1 << id_bits) - 1)) << bits | n
