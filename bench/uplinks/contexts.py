"""Cases: which context a device has and at which address, rejoins, counters, and what comes more than once."""

from common import count0, count1, flipped, started
from formulas import js_int, rejoin1, rejoin02
from talk import FOREIGN, JOIN_EUI, NET, SECOND, Talk, device, head, request


def contexts():
    talk = Talk("a device joins by a gateway, and sends uplinks")
    dev = device(1)
    talk.join(dev, 0x26000000)
    for _ in range(3):
        talk.uplink(dev)
    yield talk

    talk = Talk("the old context lasts until the first uplink under the new one", "The old address is free from then on.")
    dev = device(1)
    talk.join(dev, 0x26000000)
    talk.uplink(dev)
    old = dev.session
    talk.join(dev, 0x26000001)
    talk.uplink(dev, session=old)
    talk.uplink(dev)
    talk.uplink(dev, "address", session=old)
    talk.uplink(dev)
    talk.join(dev, 0x26000000)
    yield talk

    talk = Talk("a pending context is replaced by the next join, and blocks its own address until then")
    dev = device(1)
    sessions = []
    for addr in (0x26000000, 0x26000001, 0x26000000):
        talk.join(dev, addr)
        sessions.append(dev.session)
    talk.uplink(dev, "mic", session=sessions[0])
    talk.uplink(dev, "address", session=sessions[1])
    talk.uplink(dev)
    yield talk

    talk, first, second, third = started("each device gets the least address that is free", 3)
    old = second.session
    talk.join(second, 0x26000003)
    talk.join(device(4), 0x26000004)
    talk.uplink(second)
    talk.uplink(second, "address", session=old)
    talk.join(device(5), 0x26000001)
    talk.join(device(6), 0x26000005)
    for dev in (first, third):
        talk.uplink(dev)
    yield talk

    talk, dev = started("a device joins while its old context is active: an uplink under the old one leaves the new one pending")
    old = dev.session
    talk.join(dev, 0x26000001)
    for _ in range(3):
        talk.uplink(dev, session=old)
    talk.uplink(dev)
    talk.uplink(dev, "address", session=old)
    yield talk

    talk, dev = started("a wrong uplink under the pending context doesn't make it active")
    old = dev.session
    talk.join(dev, 0x26000001)
    frame = dev.uplink(b"\1")
    talk.hears(flipped(frame, len(frame) - 1), "mic")
    talk.uplink(dev, session=old)
    talk.hears(frame)
    talk.uplink(dev, "address", session=old)
    yield talk

    talk = Talk("what was refused is decided anew: an uplink that comes before its join")
    ahead = Talk("ahead")
    dev = device(1)
    join = dev.join()
    dev.accept(bytes.fromhex(ahead.hears(join)["PHYPayload"]))
    body = talk.uplink_req(dev.uplink(b"\1"))
    talk.say(body, "address")
    talk.hears(join)
    talk.say(body)
    yield talk

    talk, dev = started("the application gets its key of a session that a gateway brought, and the home is this network")
    for transaction, member, wanted in ((7, "000001", ""), (8, "000002", "session")):
        ask = head("a000000000000001", f"{JOIN_EUI:016x}", transaction, "AppSKeyReq")
        talk.say(request({**ask, "DevEUI": f"{dev.eui:016x}", "SessionKeyID": f"{dev.eui:016x}{member}"}), wanted)
    ask = head("000015", f"{JOIN_EUI:016x}", 9, "HomeNSReq")
    talk.say(request({**ask, "DevEUI": f"{dev.eui:016x}"}))
    yield talk

    talk = Talk("a network's join of a device that is at home here is refused, and a gateway's then accepted")
    dev = device(1)
    frame = dev.join()
    ask = head("000014", f"{JOIN_EUI:016x}", 9, "JoinReq")
    members = {"MACVersion": "1.1", "PHYPayload": frame.hex(), "DevEUI": f"{dev.eui:016x}", "DevAddr": "28000001"}
    talk.say(request({**ask, **members, "DLSettings": "80", "RxDelay": 1}), "home")
    talk.hears(frame)
    yield talk

    talk = Talk("joins of a device that is at home elsewhere go on while gateways are heard")
    own, foreign = device(1), device(33, FOREIGN)
    talk.join(own, 0x26000000)
    ask = head("000014", f"{JOIN_EUI:016x}", 9, "JoinReq")
    members = {"MACVersion": "1.1", "PHYPayload": foreign.join().hex(), "DevEUI": f"{foreign.eui:016x}"}
    talk.say(request({**ask, **members, "DevAddr": "26000000", "DLSettings": "80", "RxDelay": 1}))
    talk.uplink(own)
    yield talk

    talk = Talk("the radio parameters of the tables go into the accept", replace=[('"80" ', '"d7" '), ("= 1 ", "= 15 ")])
    dev = device(1)
    talk.join(dev)
    if dev.session.radio != (0xD7, 15, b""):
        raise ValueError(dev.session.radio)
    talk.uplink(dev)
    yield talk


def rejoins():
    for kind in (0, 1, 2):
        talk, dev = started(f"a rejoin of type {kind} makes a pending context")
        old = dev.session
        talk.rejoin(dev, kind, 0x26000001)
        talk.uplink(dev, session=old)
        talk.uplink(dev)
        talk.uplink(dev, "address", session=old)
        talk.rejoin(dev, kind, 0x26000000)
        talk.uplink(dev)
        yield talk

        if kind != 1:
            talk = Talk(f"a rejoin of type {kind} under the pending context's keys makes that one active first")
            dev = device(1)
            talk.join(dev, 0x26000000)
            talk.uplink(dev)
            oldest = dev.session
            talk.join(dev, 0x26000001)
            old = dev.session
            talk.rejoin(dev, kind, 0x26000000)
            talk.uplink(dev, "mic", session=oldest)
            talk.uplink(dev, session=old)
            talk.uplink(dev)
            talk.uplink(dev, "address", session=old)
            yield talk

            talk = Talk(f"a rejoin of type {kind} under the active context's keys replaces the pending one")
            dev = device(1)
            talk.join(dev, 0x26000000)
            talk.uplink(dev)
            old = dev.session
            talk.join(dev, 0x26000001)
            replaced = dev.session
            dev.session = old
            talk.rejoin(dev, kind, 0x26000002)
            talk.uplink(dev, "address", session=replaced)
            talk.uplink(dev, session=old)
            talk.uplink(dev)
            talk.uplink(dev, "address", session=old)
            yield talk

    talk = Talk("a rejoin of type 1 leaves the pending context's keys alone, and replaces it")
    dev = device(1)
    talk.join(dev, 0x26000000)
    old = dev.session
    talk.rejoin(dev, 1, 0x26000001)
    talk.uplink(dev, "address", session=old)
    talk.uplink(dev)
    yield talk

    talk = Talk("a rejoin right after the join, of a device without an uplink")
    dev = device(1)
    talk.join(dev, 0x26000000)
    old = dev.session
    talk.rejoin(dev, 0, 0x26000001)
    talk.uplink(dev, session=old)
    talk.uplink(dev)
    yield talk

    talk, dev = started("a rejoin under an old session's keys is accepted while they are among the last four")
    old = dev.session
    for _ in range(3):
        talk.join(dev)
        talk.uplink(dev)
    kept, dev.session = dev.session, old
    talk.rejoin(dev, 0)
    talk.uplink(dev)
    dev.session = old
    talk.hears(dev.rejoin(0), "mic")
    dev.session = kept
    talk.rejoin(dev, 2)
    talk.uplink(dev)
    yield talk

    talk, dev = started("RJcount0 rises under each session by itself, and RJcount1 over all of them")
    first = dev.session
    s, eui = first.s, dev.eui
    talk.activate(dev, count0(dev, s, 0, 5))
    second = dev.session
    talk.hears(rejoin02(s, 0, NET, eui, 5), "counter")
    talk.hears(rejoin02(s, 2, NET, eui, 4), "counter")
    talk.activate(dev, count0(dev, second.s, 2, 0))
    talk.activate(dev, count0(dev, s, 0, 6))
    talk.activate(dev, count1(dev, 3))
    talk.hears(rejoin1(js_int(dev.nwk, eui), JOIN_EUI, eui, 3), "counter")
    talk.activate(dev, count1(dev, 65535))
    talk.hears(rejoin1(js_int(dev.nwk, eui), JOIN_EUI, eui, 0), "counter")
    talk.uplink(dev)
    yield talk

    talk, dev = started("each activation has the next JoinNonce, whatever its kind")
    for kind in (0, 1, 2, 0):
        talk.rejoin(dev, kind)
    dev.dev_nonce = 9
    talk.join(dev)
    if dev.join_nonce != 6:
        raise ValueError(dev.join_nonce)
    yield talk

    talk, dev = started("DevNonce rises: a join with the last one, or one below, is refused", uplinks=0)
    dev.dev_nonce = 9
    talk.join(dev)
    for nonce in (9, 8, 0):
        dev.dev_nonce = nonce
        talk.hears(dev.join(), "counter")
    dev.dev_nonce = 65535
    talk.join(dev)
    dev.dev_nonce = 65535
    talk.hears(dev.join(), "counter")
    talk.uplink(dev)
    yield talk


def counters():
    talk = Talk("the counter of an uplink is the least number above the last one: across 65536")
    dev = device(1)
    talk.join(dev)
    talk.uplink(dev, count=65535)
    talk.uplink(dev, count=65536)
    talk.uplink(dev)
    yield talk

    talk = Talk("the first uplink's counter is the number that it sends")
    first, second = device(1), device(2)
    talk.join(first)
    talk.join(second)
    talk.uplink(first, count=0)
    talk.uplink(second, "mic", count=65536)
    talk.uplink(second, count=40000)
    yield talk

    talk, dev = started("a counter that jumps by 65535 and by 65536 is found, and one that jumps by 65537 isn't")
    talk.uplink(dev, count=65535)
    talk.uplink(dev, count=131071)
    talk.uplink(dev, "mic", count=196608)
    talk.uplink(dev, count=196607)
    yield talk

    talk, dev = started("an uplink with the last counter, or one below, is refused", uplinks=3)
    talk.uplink(dev, "mic", count=2, payload=b"\2")
    talk.uplink(dev, "mic", count=1, payload=b"\2")
    talk.uplink(dev, "mic", count=0, payload=b"\2")
    talk.uplink(dev, count=3)
    yield talk

    talk, dev = started("uplinks that are lost leave a gap, and one that is late is refused")
    frames = [dev.uplink(bytes([n])) for n in range(4)]
    talk.hears(frames[3])
    for frame in frames[:3]:
        talk.hears(frame, "mic")
    talk.uplink(dev)
    yield talk

    talk, dev = started("the counter begins again with each context")
    old = dev.session
    talk.uplink(dev, count=1000)
    talk.join(dev)
    talk.uplink(dev, count=0)
    talk.uplink(dev)
    yield talk

    talk, first, second = started("each device has its own counter", 2)
    talk.uplink(first, count=500)
    talk.uplink(second, count=1)
    talk.uplink(first, count=501)
    yield talk


def duplicates():
    talk = Talk("one frame through two gateways counts once, and both get its counter")
    dev = device(1)
    talk.join(dev)
    frame = talk.uplink(dev)
    talk.hears(frame, gateway=SECOND)
    talk.uplink(dev, gateway=SECOND)
    yield talk

    talk = Talk("a frame that comes again through its own gateway, in another request, is the same frame")
    dev = device(1)
    talk.join(dev)
    frame = talk.uplink(dev)
    talk.hears(frame)
    talk.hears(frame, rate=5)
    talk.uplink(dev)
    yield talk

    talk, dev = started("the last frame alone is a duplicate")
    frames = [talk.uplink(dev), talk.uplink(dev)]
    talk.hears(frames[0], "mic", gateway=SECOND)
    talk.hears(frames[1], gateway=SECOND)
    talk.uplink(dev)
    talk.hears(frames[1], "mic", gateway=SECOND)
    yield talk

    talk, dev = started("a frame with another MIC is no duplicate")
    frame = talk.uplink(dev)
    talk.hears(flipped(frame, len(frame) - 1), "mic", gateway=SECOND)
    talk.hears(frame, gateway=SECOND)
    yield talk

    talk, dev = started("the uplink that makes a context active comes through a second gateway too")
    talk.join(dev, 0x26000001)
    frame = talk.uplink(dev)
    talk.hears(frame, gateway=SECOND)
    talk.uplink(dev)
    yield talk

    talk, dev = started("a duplicate under the active context leaves the pending one pending")
    old, frame = dev.session, talk.uplink(dev)
    talk.join(dev, 0x26000001)
    talk.hears(frame, gateway=SECOND)
    talk.uplink(dev, session=old)
    talk.uplink(dev)
    talk.hears(frame, "address", gateway=SECOND)
    yield talk

    talk, dev = started("a join through two gateways is accepted once, and then refused for its counter")
    frame = dev.join()
    talk.activate(dev, frame)
    talk.hears(frame, "counter", gateway=SECOND)
    talk.uplink(dev)
    yield talk

    talk, dev = started("the same request gets the bytes that it got, though its frame isn't the last one any more")
    body = talk.uplink_req(dev.uplink(b"\1"))
    talk.say(body)
    talk.say(body)
    talk.uplink(dev)
    talk.say(body)
    talk.say(body + "\r", "mic")
    talk.uplink(dev)
    yield talk

    talk, dev = started("the same request of a join gets the same accept, and the device one context")
    body = talk.uplink_req(dev.join())
    first = talk.say(body)
    dev.accept(bytes.fromhex(first["PHYPayload"]))
    talk.uplink(dev)
    if talk.say(body) != first:
        raise ValueError("another answer")
    talk.uplink(dev)
    talk.join(dev, 0x26000000)
    yield talk

    talk, dev = started("the same rejoin gets the same accept")
    body = talk.uplink_req(dev.rejoin(0))
    talk.say(body)
    talk.say(body)
    talk.join(dev, 0x26000002)
    yield talk

    talk, dev = started("the answer to a duplicate isn't kept")
    frame = talk.uplink(dev)
    body = talk.uplink_req(frame, gateway=SECOND)
    talk.say(body)
    talk.uplink(dev)
    talk.say(body, "mic")
    yield talk

    talk, dev = started("a gateway's requests are its own: another one's with the same text is another request")
    frame = dev.uplink(b"\1")
    talk.hears(frame, TransactionID=5)
    talk.uplink(dev)
    talk.hears(frame, TransactionID=5)
    talk.hears(frame, "mic", TransactionID=5, gateway=SECOND)
    yield talk

    talk, dev = started("the answer behind 64 others of its gateway lets the first go", 1, 0)
    bodies = []
    for _ in range(65):
        bodies.append(talk.uplink_req(dev.uplink(b"\1")))
        talk.say(bodies[-1])
    talk.say(bodies[0], "mic")
    talk.say(bodies[1])
    talk.say(bodies[64])
    talk.uplink(dev, gateway=SECOND)
    yield talk
