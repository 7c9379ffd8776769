"""A simulated LoRaWAN 1.1 device of class A: it joins, opens accepts, sends uplinks on any channel, rejoins, hears downlinks.

It keeps the counters that the standard gives a device, and knows nothing of a desk. Independent of lwdesk.
"""

from formulas import (
    JOIN,
    channels,
    down_mic,
    f_key,
    js_int,
    join_frame,
    le,
    number_at,
    opened,
    rejoin1,
    rejoin02,
    s_key,
    up_mic,
)

ADR, ADR_ACK_REQ, ACK = 128, 64, 32
PENDING = 16


class Session:
    """What a device has from one accept."""

    def __init__(self, device, net, addr, seed, radio):
        self.f, self.s = f_key(device.nwk, seed), s_key(device.nwk, seed)
        self.net, self.addr, self.seed, self.radio = net, addr, seed, radio
        self.channels = channels(radio[2])
        self.up = 0
        self.rj0 = 0
        self.next_down = {True: 0, False: 0}  # by whether the downlink has a port: AFCntDown, NFCntDown
        self.conf = None  # of a confirmed downlink that isn't acknowledged yet, its number


class Device:
    def __init__(self, eui, join_eui, nwk, home):
        self.eui, self.join_eui, self.nwk, self.home = eui, join_eui, nwk, home
        self.dev_nonce = 0
        self.rj1 = 0
        self.join_nonce = 0
        self.session = None
        self.asked = None  # the kind and the counter of the accept that is waited for

    def join(self):
        frame = join_frame(self.nwk, self.join_eui, self.eui, self.dev_nonce)
        self.asked = (JOIN, self.dev_nonce)
        self.dev_nonce += 1
        return frame

    def rejoin(self, kind):
        if kind == 1:
            count, self.rj1 = self.rj1, self.rj1 + 1
            frame = rejoin1(js_int(self.nwk, self.eui), self.join_eui, self.eui, count)
        else:
            count, self.session.rj0 = self.session.rj0, self.session.rj0 + 1
            frame = rejoin02(self.session.s, kind, self.home, self.eui, count)
        self.asked = (kind, count)
        return frame

    def accept(self, frame):
        """Opens an accept, and uses its session from now on."""
        kind, counter = self.asked
        nonce, net, addr, radio = opened(self.nwk, self.eui, kind, self.join_eui, counter, frame)
        if nonce <= self.join_nonce:
            raise ValueError("an old JoinNonce")
        self.join_nonce = nonce
        self.session = Session(self, net, addr, (nonce, self.join_eui, counter), radio)

    def uplink(self, payload=None, port=1, confirmed=False, flags=0, fopts=b"", rate=0, channel=0, count=None):
        """The next uplink, without a port where there is no payload; `count` is where the counter jumps to."""
        session = self.session
        if count is None:
            count = session.up
        conf = 0
        if session.conf is not None:
            flags, conf, session.conf = flags | ACK, session.conf, None
        text = bytes([0x80 if confirmed else 0x40]) + le(session.addr, 4) + bytes([flags | len(fopts)])
        text += le(count % 65536, 2) + fopts
        if payload is not None:
            text += bytes([port]) + payload
        session.up = count + 1
        return text + up_mic(session.f, session.s, text, count, conf, rate, channel)

    def hear(self, frame):
        """Takes a downlink that comes behind its last uplink, and tells it: as "A7 confirmed ack pending", or "N0"."""
        session = self.session
        text, control = frame[:-4], frame[5]
        has_port = len(frame) > 12
        wire = number_at(frame, 6, 2)
        count = session.next_down[has_port]
        count += (wire - count) % 65536
        conf = (session.up - 1) % 65536 if control & ACK else 0
        if down_mic(session.s, text, count, conf) != frame[-4:] or number_at(frame, 1, 4) != session.addr:
            raise ValueError("no downlink of this session")
        session.next_down[has_port] = count + 1
        told = [f"{'A' if has_port else 'N'}{count}"]
        if frame[0] == 0xA0:
            session.conf = count % 65536
            told.append("confirmed")
        return " ".join(told + [word for bit, word in ((ACK, "ack"), (PENDING, "pending")) if control & bit])
