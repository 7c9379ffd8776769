"""What the cases of gateways' requests have in common."""

from formulas import js_int, rejoin1, rejoin02
from talk import JOIN_EUI, NET, Talk, device

LIST_BYTES = bytes.fromhex("184f84e85684b85e84886684586e8400")
LIST = ("rx_delay = 1 ", 'cf_list = "184f84e85684b85e84886684586e8400"\nrx_delay = 1 ')
GAPS = ("rx_delay = 1 ", 'cf_list = "184f84000000b85e84000000586e8400"\nrx_delay = 1 ')
NO_CHANNELS = ("rx_delay = 1 ", 'cf_list = "00000000000000000000000000000000"\nrx_delay = 1 ')
OTHER_EUI = ('"70b3d57ed0000001"]', '"70b3d57ed0000001", "70b3d57ed0000009"]')


def flipped(frame, at, bit=0):
    return frame[:at] + bytes([frame[at] ^ 1 << bit]) + frame[at + 1 :]


def started(name, count=1, uplinks=1, **more):
    """A talk with devices that have joined, each with that many uplinks behind it."""
    talk = Talk(name, **more)
    devices = [device(i) for i in range(1, count + 1)]
    for n, dev in enumerate(devices):
        talk.join(dev, 0x26000000 + n)
        for _ in range(uplinks):
            talk.uplink(dev)
    return talk, *devices


def count0(dev, s, kind, count):
    dev.asked = (kind, count)
    return rejoin02(s, kind, NET, dev.eui, count)


def count1(dev, count):
    dev.asked = (1, count)
    return rejoin1(js_int(dev.nwk, dev.eui), JOIN_EUI, dev.eui, count)
