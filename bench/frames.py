#!/usr/bin/env python3
"""The data frames that the tests of crates/data_frames expect, made by the CMAC of Python's `cryptography`.

Each line is the first eight bytes, the length and the MIC of a frame under the keys and the address below (LoRaWAN 1.1, 4.3 and 4.4).
"""

import struct

from cryptography.hazmat.primitives.ciphers.algorithms import AES
from cryptography.hazmat.primitives.cmac import CMAC

F, S = bytes([0x11] * 16), bytes([0x22] * 16)
ADDR = struct.pack("<I", 0x26000001)
TEXT = bytes(range(242))


def mac(key, text):
    code = CMAC(AES(key))
    code.update(text)
    return code.finalize()


def block(conf, rate, channel, direction, count, message):
    return struct.pack("<BHBBB", 0x49, conf, rate, channel, direction) + ADDR + struct.pack("<IBB", count, 0, len(message)) + message


def message(mhdr, fctrl, count, fopts, port, payload):
    port = b"" if port is None else bytes([port])
    return bytes([mhdr]) + ADDR + struct.pack("<BH", fctrl, count & 0xFFFF) + TEXT[:fopts] + port + TEXT[:payload]


def uplink(confirmed, adr, adr_ack_req, ack, fopts, port, payload, count, conf, rate, channel):
    text = message(0x80 if confirmed else 0x40, adr << 7 | adr_ack_req << 6 | ack << 5 | fopts, count, fopts, port, payload)
    return text + mac(S, block(conf, rate, channel, 0, count, text))[:2] + mac(F, block(0, 0, 0, 0, count, text))[:2]


def downlink(confirmed, ack, pending, count, port, payload):
    text = message(0xA0 if confirmed else 0x60, (ack is not None) << 5 | pending << 4, count, 0, port, payload)
    return text + mac(S, block((ack or 0) & 0xFFFF, 0, 0, 1, count, text))[:4]


FRAMES = [
    uplink(False, False, False, False, 0, None, 0, 0, 0, 0, 0),
    uplink(True, False, False, True, 0, 7, 242, 0x12345, 0xABCD, 5, 7),
    uplink(False, True, True, False, 15, None, 0, 0xFFFFFFFF, 0, 3, 2),
    uplink(True, True, False, True, 15, 0, 3, 0xFF, 0x8001, 0, 4),
    downlink(False, 0x12345, False, 0, None, 0),
    downlink(True, None, True, 0x1FFFF, 200, 242),
    downlink(False, None, False, 0xFFFFFFFE, 1, 1),
    downlink(True, 0xFFFF0001, True, 7, 0, 3),
]

if __name__ == "__main__":
    for frame in FRAMES:
        print(frame[:8].hex(), len(frame), frame[-4:].hex())
