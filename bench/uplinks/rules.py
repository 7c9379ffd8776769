"""Cases: the members of a gateway's request, each rule alone, and neighbours in the order of rules."""

from common import OTHER_EUI, flipped, started
from device import Device
from formulas import le, rejoin02
from talk import FIRST, FOREIGN, JOIN_EUI, NET, Talk, device, head, request


def members():
    # What is wrong, the change of the members' text, and the description of the refusal.
    changes = [
        ("PHYPayload missing", {"PHYPayload": None}, "message"),
        ("PHYPayload null", {"PHYPayload": "NULL"}, "message"),
        ("PHYPayload a number", {"PHYPayload": 40}, "message"),
        ("PHYPayload an array", {"PHYPayload": []}, "message"),
        ("DataRate missing", {"DataRate": None}, "message"),
        ("DataRate null", {"DataRate": "NULL"}, "message"),
        ('DataRate "0"', {"DataRate": "0"}, "message"),
        ("DataRate 8", {"DataRate": 8}, "message"),
        ("DataRate 255", {"DataRate": 255}, "message"),
        ("DataRate -1", {"DataRate": -1}, "message"),
        ("DataRate 0.0", {"DataRate": 0.0}, "message"),
        ("DataRate true", {"DataRate": True}, "message"),
        ("DataRate in ULMetaData alone", {"DataRate": None, "ULMetaData": {"DataRate": 0}}, "message"),
    ]
    for name, change, wanted in changes:
        talk, dev = started(f"each member of an uplink has its form: {name}")
        frame = dev.uplink(b"\1")
        body = talk.uplink_req(frame, **change).replace('"NULL"', "null")
        talk.say(body, wanted)
        talk.hears(frame)
        yield talk

    talk, dev = started("each member of an uplink has its form: digits that are none, or one too few")
    frame = dev.uplink(b"\1").hex()
    for text in (frame[:-1], frame[:-1] + "g", frame[:-2] + " 0", "0x0x" + frame, "x" + frame, " " + frame, frame + " "):
        talk.hears(text, "message")
    talk.hears(frame[:-1] + "é", "message")
    talk.hears(frame)
    yield talk

    talk, dev = started("each member of an uplink has its form: numbers that aren't whole")
    frame = dev.uplink(b"\1")
    body = talk.uplink_req(frame, DataRate=77)
    for text in ("0e0", "1e0", "0.5", "-0", "-0.0", "18446744073709551616", "[0]", "{}", '""'):
        talk.say(body.replace("77", text), "message")
    for text in ("00", "0x0", "+0", ".0", "1e999", "NaN"):
        talk.say_bare(body.replace("77", text))
    talk.say(body.replace("77", " 0 "))
    yield talk

    talk, dev = started("digits of a frame are read in each way to write them")
    for form in (str.upper, lambda t: "0x" + t, lambda t: "0X" + t.upper(), lambda t: t[:9].upper() + t[9:]):
        talk.hears(form(dev.uplink(b"\xab\xcd\xef").hex()))
    yield talk

    talk, dev = started("members that nobody reads: of other requests, of gateways, and others")
    for more in (
        {"ULMetaData": {"DataRate": 5, "ULFreq": 868.1, "RSSI": -80}},
        {"DevEUI": "nobody", "DevAddr": 7, "MACVersion": "1.0", "CFList": None, "DLSettings": "00"},
        {"FCntUp": 9, "SessionKeyID": "", "Result": {"ResultCode": "Success"}},
        {"": [], "datarate": 9, "PHYPayLoad": ""},
    ):
        talk.hears(dev.uplink(b"\1"), **{k: v for k, v in more.items()})
    yield talk

    talk, dev = started("the order of members doesn't count, and the last of a name does")
    frame = dev.uplink(b"\1")
    body = talk.uplink_req(frame)
    talk.say("{" + ",".join(reversed(body[1:-1].split(","))) + "}")
    frame = dev.uplink(b"\1").hex()
    body = talk.uplink_req(frame)
    talk.say(body[:-1] + ',"DataRate":9}', "message")
    talk.say(body[:-1] + ',"PHYPayload":""}', "size")
    talk.say(body[:-1] + ',"SenderID":"b000000000000009"}', "sender")
    talk.say('{"DataRate":9,"PHYPayload":null,' + body[1:])
    yield talk

    talk, dev = started("escapes and blanks within a request")
    body = talk.uplink_req(dev.uplink(b"\1"))
    talk.say(body.replace("PHYPayload", "PHY\\u0050ayload").replace("000013", "0000\\u00313").replace(",", " ,\t"))
    yield talk

    for name in ("ProtocolVersion", "SenderID", "ReceiverID", "TransactionID", "MessageType"):
        talk, dev = started(f"an uplink without a common member has no head: {name}")
        body = talk.uplink_req(dev.uplink(b"\1"), **{name: None})
        talk.say_bare(body)
        talk.uplink(dev)
        yield talk


def rules():
    talk, dev = started("an uplink is refused for the first cause: each version")
    frame = dev.uplink(b"\1")
    for version in ("2.0", "1", "1.1.0", "1.2", ""):
        talk.hears(frame, "version", ProtocolVersion=version)
    talk.hears(frame, ProtocolVersion="1.0")
    yield talk

    talk, dev = started("an uplink is refused for the first cause: senders without a row")
    frame = dev.uplink(b"\1")
    for sender in ("b000000000000003", "00001f", "000013", "70b3d57ed0000001", "70b3d57ed0000002", f"{dev.eui:016x}"):
        talk.hears(frame, "sender", gateway=sender)
    talk.hears(frame, gateway="0xB000000000000001")
    yield talk

    talk, dev = started("an uplink is refused for the first cause: receivers that aren't this network")
    frame = dev.uplink(b"\1")
    for receiver in ("70b3d57ed0000001", "000014", "00001f", "b000000000000001", "70b3d57ed0000002"):
        talk.hears(frame, "receiver", ReceiverID=receiver)
    talk.hears(frame, ReceiverID="0X000013")
    yield talk

    talk, dev = started("an uplink is refused for the first cause: senders of another kind")
    frame = dev.uplink(b"\1")
    for sender in ("000014", "000015", "600005", "a000000000000001"):
        talk.hears(frame, "type", gateway=sender)
    talk.hears(frame)
    yield talk

    talk, dev = started("a gateway sends nothing but uplinks")
    frame, eui = dev.join().hex(), f"{JOIN_EUI:016x}"
    joins = {"MACVersion": "1.1", "PHYPayload": frame, "DevEUI": f"{dev.eui:016x}", "DevAddr": "28000001"}
    for kind in ("JoinReq", "RejoinReq"):
        ask = head(FIRST, eui, 5, kind)
        talk.say(request({**ask, **joins, "DLSettings": "80", "RxDelay": 1}), "type")
    talk.say(request({**head(FIRST, eui, 5, "HomeNSReq"), "DevEUI": f"{dev.eui:016x}"}), "type")
    ask = head(FIRST, eui, 5, "AppSKeyReq")
    talk.say(request({**ask, "DevEUI": f"{dev.eui:016x}", "SessionKeyID": f"{dev.eui:016x}000001"}), "type")
    for kind in ("UplinkAns", "uplinkreq", "UplinkReq ", ""):
        talk.hears(frame, "type", MessageType=kind)
    talk.hears(frame, MessageType="UplinkReq")
    yield talk

    talk = Talk("an uplink is refused for the first cause: a device that isn't at home here, or isn't known")
    for dev in (device(33, FOREIGN), device(40, FOREIGN), device(99)):
        talk.hears(dev.join(), "device")
        talk.hears(dev.rejoin(1), "device")
        for kind in (0, 2):
            talk.hears(rejoin02(bytes(16), kind, dev.home, dev.eui, 0), "device")
    yield talk

    talk, dev = started("an uplink is refused for the first cause: an address that no context has")
    frame = dev.uplink(b"\1")
    for addr in (0x26000001, 0x27FFFFFF, 0x24000000, 0x28000000, 0, 0xFFFFFFFF, 0x00000026):
        talk.hears(frame[:1] + le(addr, 4) + frame[5:], "address")
    talk.hears(frame)
    yield talk

    talk = Talk("an uplink is refused for the first cause: another JoinEUI, though it is this desk's", replace=[OTHER_EUI])
    dev = device(1)
    other = Device(dev.eui, 0x70B3D57ED0000009, dev.nwk, NET)
    talk.hears(other.join(), "eui")
    talk.hears(other.rejoin(1), "eui")
    talk.join(dev)
    yield talk

    talk, dev = started("an uplink is refused for the first cause: a rejoin that names another network")
    for kind in (0, 2):
        for net in (0x14, 0, 0xFFFFFF):
            talk.hears(rejoin02(dev.session.s, kind, net, dev.eui, 0), "eui")
        talk.rejoin(dev, kind)
    yield talk

    talk = Talk("an uplink is refused for the first cause: a rejoin of type 0 or 2 of a device that never joined")
    dev = device(1)
    for kind in (0, 2):
        talk.hears(rejoin02(bytes(16), kind, NET, dev.eui, 0), "mic")
    talk.rejoin(dev, 1, 0x26000000)
    talk.uplink(dev)
    yield talk

    talk, dev = started("a refusal changes nothing: the counters, the contexts and the next JoinNonce stay")
    frame = dev.uplink(b"\1", count=9)
    talk.hears(flipped(frame, 12), "mic")
    wrong = dev.join()
    talk.hears(flipped(wrong, 22), "mic")
    talk.hears(flipped(dev.rejoin(1), 23), "mic")
    dev.dev_nonce, dev.rj1 = 1, 0
    talk.uplink(dev, count=1)
    talk.join(dev, 0x26000001)
    talk.rejoin(dev, 1, 0x26000002)
    if dev.join_nonce != 3:
        raise ValueError(dev.join_nonce)
    yield talk


def pairs():
    def pair(name):
        return started(f"an uplink is refused for the first of two causes: {name}")

    talk, dev = pair("DataRate 8 and the version")
    talk.hears(dev.uplink(b"\1"), "message", rate=8, ProtocolVersion="2.0")
    yield talk
    talk, dev = pair("the version and the sender")
    talk.hears(dev.uplink(b"\1"), "version", gateway="00001f", ProtocolVersion="2.0")
    yield talk
    talk, dev = pair("the sender and the receiver")
    talk.hears(dev.uplink(b"\1"), "sender", gateway="00001f", ReceiverID="000014")
    yield talk
    talk, dev = pair("the receiver and the sender's kind")
    talk.hears(dev.uplink(b"\1"), "receiver", gateway="000014", ReceiverID="70b3d57ed0000001")
    yield talk
    talk, dev = pair("the sender's kind and no frame")
    talk.hears("", "type", gateway="000014")
    yield talk
    talk, dev = pair("the sender's kind and the kept answer of a gateway")
    frame = talk.uplink(dev)
    talk.hears(frame, "type", gateway="000014", TransactionID=talk.transaction)
    yield talk
    talk, dev = pair("the size and the type of a frame")
    talk.hears(bytes([0x1F]) + bytes(21), "size")
    talk.hears(bytes([0xDF]) + bytes(19), "size")
    talk.hears(bytes([0x9F]) + bytes(4), "size")
    yield talk
    talk, dev = pair("the type of a frame and an unknown device")
    talk.hears(bytes([1]) + device(99).join()[1:], "frame")
    yield talk
    talk, dev = pair("the type of a frame and an unknown address")
    talk.hears(bytes([0x41]) + bytes(20), "frame")
    yield talk
    talk, dev = pair("an unknown device, another JoinEUI and a wrong MIC")
    other = Device(device(99).eui, JOIN_EUI + 8, bytes(16), NET)
    talk.hears(other.join(), "device")
    yield talk
    talk, dev = pair("a device at home elsewhere, another network and a wrong MIC")
    talk.hears(rejoin02(bytes(16), 0, NET, device(33).eui, 0), "device")
    yield talk
    talk, dev = pair("an unknown address and a wrong MIC")
    talk.hears(bytes([0x40]) + le(0x26000001, 4) + bytes(20), "address")
    yield talk
    talk, dev = pair("another JoinEUI and a wrong MIC")
    talk.hears(Device(dev.eui, JOIN_EUI + 8, bytes(16), NET).join(), "eui")
    yield talk
    talk, dev = pair("another network and a wrong MIC")
    talk.hears(rejoin02(bytes(16), 2, FOREIGN, dev.eui, 0), "eui")
    yield talk
    talk, dev = pair("a wrong MIC and an old DevNonce")
    dev.dev_nonce = 0
    talk.hears(flipped(dev.join(), 22), "mic")
    yield talk
    talk, dev = pair("a wrong MIC and an old RJcount1")
    talk.rejoin(dev, 1)
    dev.rj1 = 0
    talk.hears(flipped(dev.rejoin(1), 23), "mic")
    yield talk
    talk, dev = pair("a wrong MIC and an old RJcount0")
    old = dev.session
    talk.rejoin(dev, 0)
    talk.hears(flipped(rejoin02(old.s, 0, NET, dev.eui, 0), 18), "mic")
    yield talk
    talk, dev = pair("an old counter and a wrong MIC of an uplink")
    talk.uplink(dev, count=8)
    frame = dev.uplink(b"\1", count=8)
    talk.hears(flipped(frame, 12), "mic")
    yield talk
