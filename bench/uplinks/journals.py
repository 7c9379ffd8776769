"""Cases: from a history in the journal, over several lives, and in a network whose addresses are all used."""

import entries
from common import LIST_BYTES, count1, flipped, started
from device import Device, Session
from formulas import le, rejoin02, up_mic
from talk import FIRST, FOREIGN, JOIN_EUI, NET, SECOND, Talk, device


def own_context(dev, number, addr, radio, nonce=1, counter=0):
    """The entry of a join with a context, and the device's session of it."""
    dev.join_nonce, dev.dev_nonce = nonce, counter + 1
    dev.session = Session(dev, dev.home, addr, (nonce, dev.join_eui, counter), radio)
    return joined(number, nonce, counter, (addr, radio))


def joined(number, nonce, counter=0, own=None):
    request = {"sender": ("eui", int(FIRST, 16)), "body": b"", "answer": b""}
    fields = {"device": number, "counter": counter, "nonce": nonce, "own": own}
    return {"tag": "Join", "moment": 1000, **request, **fields}


def heard(dev, frame, pending, count):
    """The entry of an uplink on channel 0 that no downlink followed."""
    request = {"sender": ("eui", int(FIRST, 16)), "body": b"", "answer": b""}
    fields = {"dev": dev.eui, "pending": pending, "count": count, "frame": frame, "channel": 0, "down": 0}
    return {"tag": "Up", "moment": 1000, **request, **fields}


def radio_wanted(dev, dl):
    if dev.session.radio[0] != dl:
        raise ValueError(f"{dev.session.radio} isn't {dl:02x}")


def radios():
    """A rejoin of each type, of a device whose context has other radio parameters than the tables."""
    for kind, dl in ((0, 0x80), (1, 0x80), (2, 0x90)):
        dev = device(1)
        before = [own_context(dev, 0, 0x26000000, (0x90, 1, b""))]
        before.append(heard(dev, dev.uplink(b"\1"), 1, 0))
        talk = Talk(f"a rejoin of type {kind} {'keeps' if kind == 2 else 'loses'} the radio parameters of its context", before=before)
        talk.rejoin(dev, kind, 0x26000001)
        radio_wanted(dev, dl)
        talk.uplink(dev)
        talk.entries_wanted("Up", "Opened", "Rejoin", "Up")
        yield talk

    dev = device(1)
    before = [own_context(dev, 0, 0x26000000, (0x90, 1, b"")), heard(dev, dev.uplink(b"\1"), 1, 0)]
    active = dev.session
    before.append(own_context(dev, 0, 0x26000001, (0xA0, 2, LIST_BYTES), 2, 1))
    pending = dev.session
    talk = Talk("a rejoin of type 2 has the radio parameters of the context whose keys it is under", before=before)
    dev.session = active
    talk.rejoin(dev, 2, 0x26000002)
    radio_wanted(dev, 0x90)
    talk.uplink(dev, "mic", channel=3)
    yield talk
    talk = Talk("a rejoin of type 2 has the radio parameters of the pending context, which becomes active", before=before)
    dev.session, dev.join_nonce = pending, 2
    talk.rejoin(dev, 2, 0x26000000)
    radio_wanted(dev, 0xA0)
    talk.uplink(dev, channel=3)
    talk.uplink(dev, channel=7)
    yield talk

    dev = device(1)
    before = [own_context(dev, 0, 0x26000000, (0x90, 1, b""))]
    old = dev.session
    before.append(own_context(dev, 0, 0x26000001, (0xA0, 2, b""), 2, 1))
    talk = Talk("a rejoin of type 2 under the keys of no context has the radio parameters of the tables", before=before)
    dev.session = old
    talk.rejoin(dev, 2, 0x26000000)
    radio_wanted(dev, 0x80)
    yield talk


def lasts():
    """The last of each counter."""
    for last in (2**32 - 2, 2**32 - 1):
        dev = device(1)
        before = [own_context(dev, 0, 0x26000000, (0x80, 1, b""))]
        frame = dev.uplink(b"\1", count=last)
        before.append(heard(dev, frame, 1, last))
        name = "an uplink has the last counter, and none comes after it" if last < 2**32 - 1 else "no counter is left: a duplicate alone"
        talk = Talk(name, before=before)
        talk.hears(frame, gateway=SECOND)
        if last < 2**32 - 1:
            frame = talk.uplink(dev)
        for count in (0, 1, 65534, 65535):
            talk.hears(dev.uplink(b"\2", count=count), "mic")
        talk.hears(frame)
        yield talk

    dev = device(1)
    before = [own_context(dev, 0, 0x26000000, (0x80, 1, b"")), heard(dev, dev.uplink(b"\1", count=65535), 1, 65535)]
    talk = Talk("the last counter is 65535, and the next uplink sends 0", before=before)
    talk.uplink(dev, count=65536)
    talk.entries_wanted("Up", "Opened", "Up")
    yield talk

    for nonce in (2**24 - 2, 2**24 - 1):
        dev = device(1)
        before = [own_context(dev, 0, 0x26000000, (0x80, 1, b""), nonce)]
        name = "the last JoinNonce" if nonce < 2**24 - 1 else "no JoinNonce is left: a wrong MIC and an old counter come first"
        talk = Talk(name, before=before)
        if nonce < 2**24 - 1:
            talk.join(dev, 0x26000001)
        frame = dev.join()
        talk.hears(flipped(frame, 22), "mic")
        talk.hears(frame, "spent")
        talk.hears(dev.rejoin(0), "spent")
        talk.hears(dev.rejoin(1), "spent")
        talk.hears(dev.rejoin(2), "spent")
        dev.dev_nonce = 0
        talk.hears(dev.join(), "counter")
        talk.uplink(dev)
        yield talk


def taken():
    """A network whose addresses are all used, from its journal."""
    net = 0xE00001
    devices = [Device(0x70B3D57ED0002000 + i, JOIN_EUI, bytes([i]) * 16, net) for i in range(1, 129)]
    radio = (0x80, 1, b"")
    full = [own_context(dev, n, 0xFE000080 + n, radio) for n, dev in enumerate(devices[:127])]
    talk = Talk("the last address is drawn, and the next join finds none", tables="small_network.toml", before=full)
    talk.join(devices[127], 0xFE0000FF)
    talk.hears(devices[0].join(), "addresses spent")
    talk.uplink(devices[127])
    yield talk

    before = full[:50] + [joined(127, 2**24 - 1)] + full[50:]
    before.append(heard(devices[9], devices[9].uplink(b"\1"), 1, 0))
    before.append(own_context(devices[9], 9, 0xFE0000FF, radio, 2, 1))
    name = "an uplink is refused for the first of two causes: no JoinNonce and no address is left"
    talk = Talk(name, tables="small_network.toml", before=before)
    devices[127].dev_nonce = 1
    talk.hears(devices[127].join(), "spent")
    talk.hears(devices[9].join(), "addresses spent")
    talk.hears(devices[3].rejoin(1), "addresses spent")
    yield talk

    name = "the least address is drawn, wherever it is free"
    for n in (0, 64, 126):
        talk = Talk(f"{name}: {n}", tables="small_network.toml", before=full[:n] + full[n + 1 :])
        devices[n].dev_nonce = devices[n].join_nonce = 0
        talk.join(devices[n], 0xFE000080 + n)
        devices[127].dev_nonce = devices[127].join_nonce = 0
        talk.join(devices[127], 0xFE0000FF)
        yield talk


COLLIDES = 124_500  # the search begins near the number at which it ends for the first device's second uplink


def colliding(dev):
    """An uplink whose MIC is valid on two channels: that on which it was sent, and one below."""
    session = dev.session
    for tried in range(COLLIDES, 2**20):
        frame = dev.uplink(le(tried, 4), channel=2)
        session.up = count = session.up - 1
        if any(up_mic(session.f, session.s, frame[:-4], count, 0, 0, below) == frame[-4:] for below in (0, 1)):
            session.up += 1
            return frame
    raise ValueError("no such uplink")


def lives():
    """The program ends, and is started again."""
    talk, dev = started("contexts and counters are there when the desk is started again", uplinks=2)
    frame = dev.uplink(b"\1")
    talk.hears(frame)
    talk.again()
    talk.hears(frame, gateway=SECOND)
    talk.uplink(dev)
    old = dev.session
    talk.join(dev, 0x26000001)
    talk.again()
    talk.uplink(dev, session=old)
    talk.join(dev, 0x26000002)
    talk.again()
    talk.uplink(dev)
    talk.uplink(dev, "address", session=old)
    talk.join(dev, 0x26000000)
    if dev.join_nonce != 4:
        raise ValueError(dev.join_nonce)
    yield talk

    talk, dev = started("the same request gets the same bytes when the desk is started again")
    body, join = talk.uplink_req(dev.uplink(b"\1")), talk.uplink_req(dev.join())
    said = [talk.say(body), talk.say(join)]
    talk.again()
    if [talk.say(body), talk.say(join)] != said:
        raise ValueError("other answers")
    yield talk

    talk = Talk("each accepted request is one entry, and nothing else is", clock=[1000, 1001, 1003, 1002, 1010])
    dev = device(1)
    talk.join(dev)
    frame = talk.uplink(dev, channel=2, rate=3)
    talk.hears(frame, gateway=SECOND)
    talk.hears(flipped(frame, 13), "mic")
    talk.hears(flipped(frame, 1), "address")
    talk.rejoin(dev, 0)
    talk.uplink(dev, gateway=SECOND)
    talk.rejoin(dev, 1)
    talk.rejoin(dev, 2)
    talk.hears(device(33).join(), "device")
    talk.entries_wanted("Join", "Up", "Rejoin", "Up", "Rejoin", "Rejoin")
    yield talk

    talk, dev = started("of two channels on which a MIC is valid the least is written down")
    talk.hears(colliding(dev))
    if entries.decoded(talk.desk.records[-1])["channel"] == 2:
        raise ValueError("the greatest channel")
    talk.entries_wanted("Join", "Up", "Up")
    yield talk

    talk, dev = started("a suspended device sends uplinks, and isn't activated")
    talk.mark("suspend", dev, "suspended")
    talk.again()
    talk.uplink(dev)
    frame = dev.join()
    talk.hears(frame, "suspended")
    talk.hears(frame, "suspended", gateway=SECOND)
    for kind in (0, 1, 2):
        talk.hears(dev.rejoin(kind), "suspended")
    talk.uplink(dev)
    talk.mark("suspend", dev, "already suspended")
    talk.mark("resume", dev, "resumed")
    talk.again()
    talk.hears(frame)
    talk.mark("resume", dev, "already open")
    yield talk

    talk, dev = started("a pending context of a suspended device becomes active by its uplink")
    talk.join(dev, 0x26000001)
    talk.mark("suspend", dev, "suspended")
    talk.again()
    talk.uplink(dev)
    talk.uplink(dev)
    yield talk

    name = "an uplink is refused for the first of two causes: a suspended device, another JoinEUI and a wrong MIC"
    talk, dev = started(name)
    body = talk.uplink_req(dev.join())
    talk.say(body)
    talk.mark("suspend", dev, "suspended")
    talk.again()
    talk.hears(Device(dev.eui, JOIN_EUI + 8, bytes(16), NET).join(), "suspended")
    talk.hears(rejoin02(bytes(16), 0, FOREIGN, dev.eui, 0), "suspended")
    talk.hears(flipped(dev.join(), 0), "frame")
    talk.say(body)
    yield talk


def on_a_journal():
    for talks in (radios, lasts, taken, lives):
        yield from talks()


def full():
    note = "The network has 128 addresses. The 127th device has a context more than the others: its old one is active."
    talk = Talk("no address is left: a join changes nothing until an address is free", note, "small_network.toml")
    net = 0xE00001
    devices = [Device(0x70B3D57ED0002000 + i, JOIN_EUI, bytes([i]) * 16, net) for i in range(1, 129)]
    for n, dev in enumerate(devices[:127]):
        talk.join(dev, 0xFE000080 + n)
    last, waits = devices[126], devices[127]
    talk.uplink(last)
    old = last.session
    talk.join(last, 0xFE0000FF)
    frame = waits.join()
    talk.hears(frame, "addresses spent")
    talk.hears(frame, "addresses spent", gateway=SECOND)
    talk.hears(flipped(frame, 22), "mic")
    again = devices[0]
    talk.hears(again.join(), "addresses spent")
    again.dev_nonce = 0
    talk.hears(again.join(), "counter")
    talk.uplink(last, session=old)
    talk.uplink(last)
    talk.uplink(last, "address", session=old)
    talk.activate(waits, frame, 0xFE0000FE)
    again.dev_nonce = 1
    talk.hears(again.join(), "addresses spent")
    talk.uplink(waits)
    yield talk

    note = "The rejoin under its pending context's keys frees the address of its old active one."
    talk = Talk("no address is left: but one for a device whose pending context becomes active", note, "small_network.toml")
    devices = [Device(0x70B3D57ED0002000 + i, JOIN_EUI, bytes([i]) * 16, net) for i in range(1, 129)]
    for n, dev in enumerate(devices[:127]):
        talk.join(dev, 0xFE000080 + n)
    last = devices[5]
    talk.uplink(last)
    old = last.session
    talk.join(last, 0xFE0000FF)
    pending = last.session
    talk.hears(rejoin02(old.s, 0, net, last.eui, 0), "addresses spent")
    talk.hears(count1(last, 0), "addresses spent")
    talk.rejoin(last, 0, 0xFE000085)
    talk.uplink(last, session=pending)
    talk.uplink(last)
    talk.join(devices[127], 0xFE0000FF)
    yield talk
