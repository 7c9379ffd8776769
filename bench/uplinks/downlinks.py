"""Cases: payloads of applications that wait for a device, and the downlinks behind its uplinks."""

import random

from common import flipped, started
from device import ADR_ACK_REQ
from formulas import app_s_key, encrypted
from talk import FIRST, SECOND, device, head, request


def without_items():
    talk, dev = started("a confirmed uplink is acknowledged by an empty downlink, and another one has none")
    for count in range(3):
        talk.takes(dev, f"N{count} ack", confirmed=True)
        talk.takes(dev, None)
    yield talk

    talk, dev = started("an uplink with ADRACKReq gets an empty downlink, and ACK where it is confirmed")
    talk.takes(dev, "N0", flags=ADR_ACK_REQ)
    talk.takes(dev, "N1 ack", flags=ADR_ACK_REQ, confirmed=True)
    talk.takes(dev, None, flags=128)
    talk.takes(dev, "N2", flags=ADR_ACK_REQ)
    yield talk

    talk, dev = started("a duplicate has no downlink, and the same request has its own again")
    body = talk.uplink_req(dev.uplink(b"\1", confirmed=True))
    first = talk.say(body)
    dev.hear(bytes.fromhex(first["PHYPayload"]))
    frame = first["PHYPayload"]
    again = talk.hears(body.split('"PHYPayload":"')[1].split('"')[0], gateway=SECOND)
    if "PHYPayload" in again or talk.say(body)["PHYPayload"] != frame:
        raise ValueError(again)
    talk.takes(dev, "N1 ack", confirmed=True)
    yield talk

    talk, dev = started("the counter of empty downlinks begins again with each context")
    talk.takes(dev, "N0 ack", confirmed=True)
    talk.takes(dev, "N1 ack", confirmed=True)
    talk.join(dev)
    talk.takes(dev, "N0 ack", confirmed=True)
    yield talk

    talk, dev = started("the uplink that makes a context active is acknowledged under its keys", uplinks=0)
    talk.takes(dev, "N0 ack", confirmed=True)
    yield talk

    talk, dev = started("the counter of an uplink that is acknowledged is taken modulo 65536")
    talk.takes(dev, "N0 ack", confirmed=True, count=65535)
    talk.takes(dev, "N1 ack", confirmed=True)
    talk.takes(dev, "N2 ack", confirmed=True, count=70000)
    yield talk

    talk, dev = started("a refused uplink has no downlink and takes no number")
    frame = dev.uplink(b"\1", confirmed=True)
    talk.hears(flipped(frame, 12), "mic")
    talk.hears(frame[:-1], "mic")
    dev.session.up -= 1
    talk.takes(dev, "N0 ack", confirmed=True)
    yield talk


def items():
    talk, dev = started("an item is sent behind the next uplink, whatever that is")
    talk.queues(dev, 0)
    talk.takes(dev, "A0")
    talk.takes(dev, None)
    talk.queues(dev, 1)
    talk.takes(dev, "A1 ack", confirmed=True)
    talk.queues(dev, 2)
    talk.takes(dev, "A2", flags=ADR_ACK_REQ)
    talk.takes(dev, "N0", flags=ADR_ACK_REQ)
    yield talk

    talk, dev = started("items are sent in order, and FPending tells that one waits yet")
    for number in range(3):
        talk.queues(dev, number, payload=bytes([number] * (number + 1)), port=number + 1)
    talk.takes(dev, "A0 pending")
    talk.takes(dev, "A1 ack pending", confirmed=True)
    talk.takes(dev, "A2")
    talk.takes(dev, None)
    yield talk

    talk, dev = started("the number of an item is the application's, and the next one is above it")
    talk.queues(dev, 7)
    talk.takes(dev, "A7")
    talk.queues(dev, 7, "counter")
    talk.queues(dev, 0, "counter")
    talk.queues(dev, 8)
    talk.queues(dev, 100)
    talk.queues(dev, 99, "counter")
    talk.takes(dev, "A8 pending")
    talk.takes(dev, "A100")
    talk.queues(dev, 100, "counter")
    talk.queues(dev, 101)
    yield talk

    talk, dev = started("items and empty downlinks have counters of their own")
    for number in range(3):
        talk.queues(dev, number)
        talk.takes(dev, f"A{number}")
        talk.takes(dev, f"N{number} ack", confirmed=True)
    yield talk

    talk, dev = started("of a number above 65535 the low half is sent, and all of it is signed")
    talk.queues(dev, 65535)
    talk.queues(dev, 65536)
    talk.queues(dev, 131071)
    for told in ("A65535 pending", "A65536 pending", "A131071"):
        talk.takes(dev, told)
    yield talk

    talk, dev = started("the last number is 4294967295, and none comes after it")
    talk.queues(dev, 2**32 - 1)
    talk.queues(dev, 2**32 - 1, "counter")
    talk.queues(dev, 0, "counter")
    answer = talk.hears(dev.uplink(b"\1"))
    if answer["PHYPayload"][12:16] != "ffff":
        raise ValueError(answer)
    talk.takes(dev, None)
    yield talk

    talk, dev = started("a confirmed item is acknowledged by ConfFCnt in the MIC of the uplink with ACK")
    talk.queues(dev, 5, Confirmed=True)
    talk.takes(dev, "A5 confirmed")
    talk.takes(dev, None)
    talk.queues(dev, 6, Confirmed=True)
    talk.queues(dev, 65540, Confirmed=True)
    talk.takes(dev, "A6 confirmed pending")
    talk.takes(dev, "A65540 confirmed")
    talk.takes(dev, None)
    yield talk

    talk, dev = started("ConfFCnt stays that of the last confirmed item behind one that isn't, and without ACK it is 0")
    talk.queues(dev, 5, Confirmed=True)
    talk.queues(dev, 6, Confirmed=False)
    talk.takes(dev, "A5 confirmed pending")
    dev.session.conf = None
    talk.takes(dev, "A6")
    dev.session.conf = 6
    talk.uplink(dev, "mic")
    dev.session.conf = 0
    talk.uplink(dev, "mic")
    dev.session.conf = 5
    talk.takes(dev, None)
    dev.session.conf = 5
    talk.takes(dev, None)
    yield talk

    talk, dev = started("an item without bytes is sent with its port alone")
    talk.queues(dev, 0, payload=b"", port=223)
    answer = talk.hears(dev.uplink(b"\1"))
    if len(answer["PHYPayload"]) != 2 * 13:
        raise ValueError(answer)
    dev.hear(bytes.fromhex(answer["PHYPayload"]))
    yield talk

    talk, first, second = started("each device has its own queue", 2)
    talk.queues(first, 0)
    talk.queues(second, 3)
    talk.takes(second, "A3")
    talk.takes(second, None)
    talk.takes(first, "A0")
    yield talk

    talk, dev = started("an item is sent once, though its frame is heard by two gateways")
    talk.queues(dev, 0)
    talk.queues(dev, 1)
    frame = dev.uplink(b"\1")
    dev.hear(bytes.fromhex(talk.hears(frame)["PHYPayload"]))
    if "PHYPayload" in talk.hears(frame, gateway=SECOND):
        raise ValueError("a second downlink")
    talk.takes(dev, "A1")
    yield talk

    talk, dev = started("the same request queues one item, and another one with its number is refused")
    body = talk.xmit_req(dev, 0)
    talk.say(body)
    talk.say(body)
    talk.queues(dev, 0, "counter")
    talk.takes(dev, "A0")
    talk.say(body)
    talk.takes(dev, None)
    yield talk


def ends():
    talk, dev = started("what waits is dropped when its context ends")
    talk.queues(dev, 0)
    talk.join(dev)
    talk.takes(dev, None)
    talk.queues(dev, 0)
    talk.takes(dev, "A0")
    yield talk

    talk, dev = started("what waits under the active context is sent while the new one is pending")
    old = dev.session
    talk.queues(dev, 0)
    talk.join(dev)
    new, dev.session = dev.session, old
    talk.queues(dev, 1)
    talk.takes(dev, "A0 pending")
    dev.session = new
    talk.queues(dev, 2, "session")
    talk.takes(dev, None)
    talk.queues(dev, 0)
    talk.queues(dev, 2, "session", session=old)
    talk.takes(dev, "A0")
    yield talk

    talk, dev = started("a rejoin under the pending context's keys drops what waited under the old one")
    talk.queues(dev, 0)
    talk.join(dev)
    pending = dev.session
    talk.rejoin(dev, 0)
    newest, dev.session = dev.session, pending
    talk.takes(dev, None)
    talk.queues(dev, 4)
    talk.takes(dev, "A4")
    dev.session = newest
    talk.takes(dev, None)
    yield talk

    talk, dev = started("what waits is there when the desk is started again, and a suspended device gets it")
    talk.queues(dev, 3, Confirmed=True)
    talk.queues(dev, 9)
    talk.mark("suspend", dev, "suspended")
    talk.again()
    talk.takes(dev, "A3 confirmed pending")
    talk.queues(dev, 10)
    talk.takes(dev, "A9 pending")
    talk.again()
    talk.takes(dev, "A10")
    talk.takes(dev, "N0 ack", confirmed=True)
    talk.again()
    talk.takes(dev, "N1 ack", confirmed=True)
    yield talk

    talk, dev = started("items and downlinks are in the journal: none, an empty one, the first item")
    talk.queues(dev, 2, payload=b"\7\7", port=9, Confirmed=True)
    talk.takes(dev, "A2 confirmed")
    talk.takes(dev, "N0 ack", confirmed=True)
    talk.takes(dev, None)
    talk.entries_wanted("Join", "Up", "Queue", "Up", "Up", "Up")
    yield talk


def sizes():
    for offset, settings in ((0, "80"), (1, "90"), (5, "d0")):
        replace = [('"80" ', f'"{settings}" ')]
        talk, dev = started(f"an item waits until its size fits the first window's rate: RX1DROffset {offset}", replace=replace)
        number = 0
        for size, least in ((51, 0), (52, 3), (115, 3), (116, 4), (242, 4)):
            talk.queues(dev, number, payload=bytes(size))
            for rate in range(8):
                fits = max(rate - offset, 0) >= least
                if rate == max(least - 1, 0) + (offset if least else 0) or fits:
                    talk.takes(dev, f"A{number}" if fits else None, rate=rate)
                if fits:
                    break
            number += 1
        yield talk

    talk, dev = started("a large item waits at rate 3: the empty downlink has ACK and FPending; at rate 4 it is sent")
    talk.queues(dev, 0, payload=bytes(116))
    talk.takes(dev, "N0 ack pending", confirmed=True, rate=3)
    talk.takes(dev, None, rate=3)
    talk.takes(dev, "N1 pending", flags=ADR_ACK_REQ, rate=3)
    talk.takes(dev, "A0", rate=4)
    yield talk

    talk, dev = started("a large first item isn't overtaken by a small second one")
    talk.queues(dev, 0, payload=bytes(52))
    talk.queues(dev, 1, payload=bytes(1))
    talk.takes(dev, None, rate=2)
    talk.takes(dev, "N0 ack pending", confirmed=True, rate=2)
    talk.takes(dev, "A0 pending", rate=3)
    talk.takes(dev, "A1", rate=0)
    yield talk

    talk, dev = started("eight items wait, and a ninth is refused until one is sent")
    for number in range(8):
        talk.queues(dev, number)
    talk.queues(dev, 8, "queue full")
    talk.queues(dev, 7, "counter")
    talk.takes(dev, "A0 pending")
    talk.queues(dev, 8)
    talk.queues(dev, 9, "queue full")
    for number in range(1, 8):
        talk.takes(dev, f"A{number} pending")
    talk.takes(dev, "A8")
    yield talk


def rules():
    def alone(name):
        return started(f"a payload for a device is refused for the first cause: {name}")

    talk, dev = alone("a payload of 243 bytes")
    talk.queues(dev, 0, "size", payload=bytes(243))
    talk.queues(dev, 0, payload=bytes(242))
    yield talk

    talk, dev = alone("a device of nobody, at home elsewhere, or of another application")
    for other in (99, 33):
        talk.queues(dev, 0, "device", DevEUI=f"70b3d57ed00010{other:02x}")
    yield talk

    talk, dev = alone("ports that are none for it")
    for port in (0, 224, 255):
        talk.queues(dev, 0, "port", port=port)
    talk.queues(dev, 0, port=223)
    talk.queues(dev, 1, port=1)
    yield talk

    talk, dev = alone("a session that the active context isn't of")
    other = device(2)
    talk.join(other)
    name = f"{dev.eui:016x}"
    for session in (name + "000002", name + "000000", name + "ffffff", f"{other.eui:016x}000001"):
        talk.queues(dev, 0, "session", SessionKeyID=session)
    talk.queues(other, 0, "session")
    talk.uplink(other)
    talk.queues(other, 0)
    talk.queues(dev, 0)
    yield talk

    talk, dev = alone("senders and receivers")
    talk.queues(dev, 0, "sender", SenderID="a000000000000002")
    talk.queues(dev, 0, "type", SenderID=FIRST)
    talk.queues(dev, 0, "type", SenderID="000014")
    talk.queues(dev, 0, "receiver", ReceiverID="70b3d57ed0000001")
    talk.queues(dev, 0, "version", ProtocolVersion="2.0")
    yield talk

    talk, dev = alone("a frame of a network, which isn't served")
    meta = {"ULMetaData": {"DataRate": 0}, "PHYPayload": "40"}
    for sender in ("000014", "a000000000000001", FIRST):
        talk.queues(dev, 0, "type", SenderID=sender, **meta)
    talk.queues(dev, 0, "message", PHYPayload="4")
    talk.queues(dev, 0, "message", PHYPayload="40")
    talk.queues(dev, 0, "message", PHYPayload="40", ULMetaData={"DataRate": 8})
    yield talk

    talk, dev = started("a payload for a device is refused for the first of two causes")
    gone = f"70b3d57ed0001099"
    name = f"{dev.eui:016x}"
    talk.queues(dev, 0, "type", SenderID="000014", payload=bytes(243))
    talk.queues(dev, 0, "size", payload=bytes(243), DevEUI=gone)
    talk.queues(dev, 0, "device", port=0, DevEUI=gone)
    talk.queues(dev, 0, "port", port=0, SessionKeyID=name + "000002")
    talk.queues(dev, 5)
    talk.queues(dev, 0, "session", SessionKeyID=name + "000002")
    for number in range(6, 13):
        talk.queues(dev, number)
    talk.queues(dev, 12, "counter")
    talk.queues(dev, 13, "queue full")
    yield talk

    for member, values in (
        ("FRMPayload", (None, "0", "0g", 7)),
        ("SessionKeyID", (None, "70b3d57ed00010010001", 1)),
        ("DLMetaData", ({}, [], "", 0)),
        ("DevEUI", (None, "70b3d57ed000100", 1)),
        ("FPort", (None, 256, -1, "1", 1.0)),
        ("FCntDown", (None, 2**32, -1, "0", 0.0)),
        ("Confirmed", (0, "true", [])),
    ):
        talk, dev = started(f"each member of a payload for a device has its form: {member}")
        for value in values:
            talk.queues(dev, 0, "message", **{member: value})
        talk.queues(dev, 0)
        yield talk


def traffic():
    for seed in range(1, 9):
        chance = random.Random(100 + seed)
        talk, *devices = started(f"devices get what their applications send: conversation {seed}", 1 + seed % 3)
        waits = {dev.eui: [] for dev in devices}
        after = {dev.eui: 0 for dev in devices}
        for _ in range(30):
            dev = chance.choice(devices)
            act = chance.randrange(10)
            if act < 4 and len(waits[dev.eui]) < 8:
                number, confirmed = after[dev.eui] + chance.choice((0, 0, 5)), chance.random() < 0.4
                talk.queues(dev, number, payload=chance.randbytes(chance.randrange(51)), Confirmed=confirmed)
                waits[dev.eui].append((number, confirmed))
                after[dev.eui] = number + 1
            elif act == 9:
                talk.join(dev)
                talk.takes(dev, None)
                waits[dev.eui], after[dev.eui] = [], 0
            else:
                confirmed = chance.random() < 0.3
                wanted = None
                if waits[dev.eui]:
                    number, item_confirmed = waits[dev.eui].pop(0)
                    words = [(item_confirmed, "confirmed"), (confirmed, "ack"), (waits[dev.eui], "pending")]
                    wanted = " ".join([f"A{number}"] + [word for is_so, word in words if is_so])
                elif confirmed:
                    wanted = f"N{dev.session.next_down[False]} ack"
                talk.takes(dev, wanted, confirmed=confirmed, rate=chance.randrange(6), channel=chance.randrange(3))
        yield talk


def example():
    def valve_open(dev):
        return encrypted(app_s_key(bytes([0x81]) * 16, dev.session.seed), dev.session.addr, 0, b"valve open")

    talk, dev = started("the example of docs/OPERATING.md: a payload that its application encrypts")
    asks = head("a000000000000001", "70b3d57ed0000001", talk.next_id(), "AppSKeyReq")
    talk.say(request({**asks, "DevEUI": f"{dev.eui:016x}", "SessionKeyID": f"{dev.eui:016x}000001"}))
    talk.queues(dev, 0, payload=valve_open(dev), port=2)
    talk.takes(dev, "A0")
    yield talk

    talk, dev = started("the last conversations of ./demo")
    talk.hears("40000000260000000101020304097f5ced", gateway=SECOND, TransactionID=1)
    talk.transaction = 2
    talk.queues(dev, 0, payload=valve_open(dev), port=2)
    talk.transaction = 2
    talk.takes(dev, "A0")
    yield talk
