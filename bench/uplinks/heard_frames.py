"""Cases: frames as devices make them, frames of which something was changed, and frames that no device makes."""

import random

from common import GAPS, LIST, NO_CHANNELS, flipped, started
from device import ADR, ADR_ACK_REQ, Device
from formulas import js_int, le, rejoin1, rejoin02, up_mic
from talk import JOIN_EUI, NET, Talk, device


def frames():
    talk, dev = started("a channel of the CFList is heard, and each channel that a device always has", replace=[LIST])
    for channel in range(8):
        talk.uplink(dev, channel=channel, rate=channel % 6)
    yield talk

    talk, dev = started("a channel without a frequency isn't heard", replace=[GAPS])
    for channel in range(8):
        talk.uplink(dev, "" if channel in (0, 1, 2, 3, 5, 7) else "mic", channel=channel)
    yield talk

    talk, dev = started("without a CFList channels 3 to 7 aren't heard")
    for channel in range(8):
        talk.uplink(dev, "" if channel < 3 else "mic", channel=channel)
    talk.uplink(dev, "mic", channel=255)
    yield talk

    talk, dev = started("a CFList without a frequency adds no channel", replace=[NO_CHANNELS])
    for channel in (0, 2, 3, 7):
        talk.uplink(dev, "" if channel < 3 else "mic", channel=channel)
    yield talk

    talk, dev = started("the data rate is part of the MIC")
    for rate in range(8):
        frame = dev.uplink(b"\1", rate=rate)
        talk.hears(frame, "mic", rate=(rate + 1) % 8)
        talk.hears(frame, rate=rate)
    yield talk

    talk, dev = started("an uplink may have no port, port 0, and each other one")
    talk.uplink(dev, payload=None)
    for port in (0, 1, 223, 224, 255):
        talk.uplink(dev, port=port)
        talk.uplink(dev, port=port, payload=b"")
    yield talk

    talk, dev = started("an uplink may have up to 15 bytes of FOpts, and is no longer than 255 bytes")
    for size in (1, 7, 14, 15):
        talk.uplink(dev, payload=None, fopts=bytes(range(size)))
    talk.uplink(dev, fopts=bytes(15), payload=bytes(227))
    talk.uplink(dev, payload=bytes(242))
    talk.uplink(dev, "size", payload=bytes(243))
    talk.uplink(dev, "size", fopts=bytes(15), payload=bytes(228))
    yield talk

    talk, dev = started("payloads of each length up to three blocks")
    for size in range(40):
        talk.uplink(dev, payload=bytes([size]) * size)
    yield talk

    talk, dev = started("ADR, ClassB and the confirmed type change nothing of the counter")
    talk.uplink(dev, flags=ADR)
    talk.uplink(dev, flags=16)
    talk.uplink(dev, confirmed=True)
    talk.uplink(dev, flags=ADR | ADR_ACK_REQ | 16, confirmed=True)
    talk.uplink(dev)
    yield talk

    talk, dev = started("ACK without a downlink before it: the MIC has ConfFCnt 0")
    session = dev.session
    session.conf = 0
    talk.uplink(dev)
    session.conf = 1
    talk.uplink(dev, "mic")
    talk.uplink(dev)
    yield talk


def changed():
    talk = Talk("each byte of a join counts", "The DevEUI and the JoinEUI are looked at before the MIC.")
    dev = device(1)
    frame = dev.join()
    for at in range(23):
        wanted = "frame" if at == 0 else "eui" if at < 9 else "device" if at < 17 else "mic"
        talk.hears(flipped(frame, at, 5 if 9 <= at < 17 else 0), wanted)
    talk.activate(dev, frame, 0x26000000)
    yield talk

    for kind, size, eui in ((0, 19, 5), (2, 19, 5), (1, 24, 10)):
        talk, dev = started(f"each byte of a rejoin of type {kind} counts")
        frame = dev.rejoin(kind)
        for at in range(size):
            wanted = "frame" if at < 2 else "eui" if at < eui else "device" if at < eui + 8 else "mic"
            talk.hears(flipped(frame, at, 2 if at == 1 else 5 if eui <= at < eui + 8 else 0), wanted)
        talk.activate(dev, frame, 0x26000001)
        yield talk

    talk, dev = started("each byte of an uplink counts", replace=[LIST])
    frame = dev.uplink(b"\x09\x08\x07", fopts=b"\x02", channel=4, rate=3)
    for at in range(len(frame)):
        wanted = "frame" if at == 0 else "address" if at < 5 else "mic"
        talk.hears(flipped(frame, at), wanted, rate=3)
    talk.hears(frame, rate=3)
    yield talk

    talk, dev = started("each bit of FCtrl and of the type counts")
    frame = dev.uplink(bytes(20))
    for bit in range(8):
        talk.hears(flipped(frame, 5, bit), "mic")
    talk.hears(flipped(flipped(frame, 0, 7), 0, 6), "mic")
    talk.hears(frame)
    yield talk

    talk, dev = started("an uplink is signed under both keys: one half alone doesn't do")
    session = dev.session
    text = bytes([0x40]) + le(session.addr, 4) + bytes([0]) + le(1, 2) + b"\x01\x09"
    mic = up_mic(session.f, session.s, text, 1, 0, 0, 0)
    talk.hears(text + mic[:2] + bytes(2), "mic")
    talk.hears(text + bytes(2) + mic[2:], "mic")
    talk.hears(text + mic[2:] + mic[:2], "mic")
    talk.hears(text + up_mic(session.f, session.f, text, 1, 0, 0, 0), "mic")
    talk.hears(text + up_mic(session.s, session.s, text, 1, 0, 0, 0), "mic")
    talk.hears(text + mic)
    yield talk

    talk, first, second = started("an uplink under another device's keys or address is refused", 2)
    frame = first.uplink(b"\1")
    talk.hears(frame[:1] + le(second.session.addr, 4) + frame[5:], "mic")
    session, first.session = first.session, second.session
    talk.hears(frame)
    first.session = session
    yield talk

    talk, dev = started("a join under another device's key is refused")
    other = Device(dev.eui, JOIN_EUI, bytes([2]) * 16, NET)
    talk.hears(other.join(), "mic")
    other = Device(dev.eui, JOIN_EUI, bytes([129]) * 16, NET)
    talk.hears(other.join(), "mic")
    talk.join(dev)
    yield talk

    talk, dev = started("a rejoin of type 1 has its own key, and one of type 0 or 2 that of its session")
    s, f, js = dev.session.s, dev.session.f, js_int(dev.nwk, dev.eui)
    talk.hears(rejoin1(s, JOIN_EUI, dev.eui, 0), "mic")
    talk.hears(rejoin1(dev.nwk, JOIN_EUI, dev.eui, 0), "mic")
    for kind in (0, 2):
        talk.hears(rejoin02(js, kind, NET, dev.eui, 0), "mic")
        talk.hears(rejoin02(f, kind, NET, dev.eui, 0), "mic")
        talk.hears(rejoin02(dev.nwk, kind, NET, dev.eui, 0), "mic")
    talk.rejoin(dev, 1)
    yield talk


def hostile():
    talk = Talk("no frame, and frames of each type with no more than their first byte")
    talk.hears("", "size")
    talk.hears("0x", "size")
    for first in range(0, 256, 32):
        talk.hears(bytes([first]), "frame" if first in (0x20, 0x60, 0xA0, 0xE0) else "size")
    yield talk

    talk, dev = started("a join's type with another length", uplinks=0)
    frame = dev.join()
    for size in (1, 2, 18, 19, 22):
        talk.hears(frame[:size], "size")
    talk.hears(frame + b"\0", "size")
    talk.hears(frame + bytes(232), "size")
    talk.hears(frame + bytes(233), "size")
    talk.hears(frame)
    yield talk

    talk, dev = started("a rejoin's type with another length")
    frame = dev.rejoin(0)
    for size in (1, 2, 18):
        talk.hears(frame[:size], "size")
    talk.hears(frame + b"\0", "size")
    talk.hears(frame + bytes(4), "size")
    talk.hears(frame + bytes(5), "frame")
    talk.hears(frame + bytes(6), "size")
    talk.hears(dev.rejoin(1)[:19], "frame")
    yield talk

    talk, dev = started("an uplink's type with another length")
    frame = dev.uplink(None)
    for size in range(1, 12):
        talk.hears(frame[:size], "size")
    talk.hears(frame + bytes(244), "size")
    talk.hears(frame + bytes(1000), "size")
    talk.hears(frame + b"\0", "mic")
    talk.hears(frame)
    yield talk

    talk, dev = started("FOptsLen says more than there is")
    frame = dev.uplink(None)
    for size in range(1, 16):
        talk.hears(frame[:5] + bytes([size]) + frame[6:] + bytes(size - 1), "size")
        talk.hears(frame[:5] + bytes([size]) + frame[6:] + bytes(size), "mic")
    talk.hears(frame)
    yield talk

    talk, dev = started("types and versions that go no way up")
    join, rejoin, data = dev.join(), dev.rejoin(0), dev.uplink(bytes(10))
    for first in (0x20, 0x60, 0xA0, 0xE0, 0x3F, 0x7F, 0xBF, 0xFF):
        for frame in (join, rejoin, data):
            talk.hears(bytes([first]) + frame[1:], "frame")
    for first in (0x01, 0x02, 0x04, 0x1C, 0x1F):
        talk.hears(bytes([first]) + join[1:], "frame")
    for first in (0xC1, 0xC2, 0xDF):
        talk.hears(bytes([first]) + rejoin[1:], "frame")
    for first in (0x41, 0x42, 0x44, 0x5F, 0x81, 0x82, 0x9F):
        talk.hears(bytes([first]) + data[1:], "frame")
    talk.hears(data)
    yield talk

    talk, dev = started("rejoin types that are none")
    frame = dev.rejoin(0)
    for kind in (1, 3, 4, 127, 128, 255):
        talk.hears(frame[:1] + bytes([kind]) + frame[2:], "frame")
    frame = dev.rejoin(1)
    for kind in (0, 2, 3, 255):
        talk.hears(frame[:1] + bytes([kind]) + frame[2:], "frame")
    yield talk

    talk, dev = started("a size that is wrong comes before a version that is")
    for first in (0x41, 0x5F, 0x81):
        talk.hears(bytes([first]) + bytes(10), "size")
        talk.hears(bytes([first]) + bytes(11), "frame")
    talk.hears(bytes([1]) + bytes(21), "size")
    talk.hears(bytes([1]) + bytes(22), "frame")
    talk.hears(bytes([0xC1]) + bytes(17), "size")
    talk.hears(bytes([0xC1]) + bytes(18), "frame")
    yield talk

    talk, dev = started("frames of zeros and of ones, signed by nobody")
    for size in (12, 19, 23, 24, 255):
        talk.hears(bytes([0x40]) + bytes(size - 1), "address")
        talk.hears(bytes([0x80]) + bytes([255]) * (size - 1), "size" if size < 27 else "address")
    for first, size, wanted in ((0, 23, "device"), (0xC0, 19, "device"), (0xC0, 24, "frame")):
        talk.hears(bytes([first]) + bytes(size - 1), wanted)
    talk.hears(b"\xc0\x01" + bytes(22), "device")
    talk.hears(bytes([0]) + bytes([255]) * 22, "device")
    yield talk

    chance = random.Random(19)
    talk, dev = started("random bytes of every length up to 40, behind the address of a device")
    for size in range(12, 41):
        frame = bytes([0x40]) + le(dev.session.addr, 4) + bytes([0]) + chance.randbytes(size - 6)
        talk.hears(frame, "mic")
    talk.uplink(dev)
    yield talk
