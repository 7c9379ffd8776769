"""A case of the suite, written line by line: what is said to the desk, and what the second desk answers.

The writer of a case says how each answer has to end (its Description, "" for Success), so the second desk is held to the rules twice.
"""

import json
import os
import tomllib

import entries
from device import Device
from second_desk import Desk

TOP = os.path.dirname(os.path.dirname(os.path.abspath(__file__)))
DATA = os.path.join(TOP, "crates", "desk_rows", "data")
with open(os.path.join(TOP, "crates", "desk_main", "data", "sample.toml")) as f:
    SAMPLE = f.read()

FIRST, SECOND = "b000000000000001", "b000000000000002"
JOIN_EUI, NET, FOREIGN = 0x70B3D57ED0000001, 0x13, 0x14
BARE = '{"MessageType":"ErrorNotif","Result":{"Description":"message","ResultCode":"MalformedRequest"}}'
CODES = {
    "": "Success",
    "message": "MalformedRequest",
    "version": "InvalidProtocolVersion",
    "sender": "UnknownSender",
    "receiver": "UnknownReceiver",
    "type": "MalformedRequest",
    "size": "FrameSizeError",
    "frame": "MalformedRequest",
    "device": "UnknownDevEUI",
    "address": "UnknownDevAddr",
    "home": "ActivationDisallowed",
    "suspended": "ActivationDisallowed",
    "eui": "JoinReqFailed",
    "mic": "MICFailed",
    "counter": "JoinReqFailed",
    "spent": "JoinReqFailed",
    "addresses spent": "Other",
    "session": "Other",
    "port": "InvalidFPort",
}
XMIT_CODES = {"session": "XmitFailed", "counter": "XmitFailed", "queue full": "XmitFailed"}


def device(i, home=NET):
    """The i-th device of the sample tables."""
    return Device(0x70B3D57ED0001000 + i, JOIN_EUI, bytes([i]) * 16, home)


def request(members):
    return json.dumps(members, separators=(",", ":"))


def head(sender, receiver, transaction, kind):
    return {
        "ProtocolVersion": "1.1",
        "SenderID": sender,
        "ReceiverID": receiver,
        "TransactionID": transaction,
        "MessageType": kind,
    }


class Talk:
    """A case in the making. `clock` is what the clock tells: a moment, or some; `before` the entries behind the tables."""

    def __init__(self, name, note="", tables="", replace=(), clock=1000, before=None):
        self.name = name
        self.said = [f"# {line}" for line in note.split("\n") if line] + [f"case {name}"]
        text = SAMPLE
        if tables:
            with open(os.path.join(DATA, tables)) as f:
                text = f.read()
            self.said.append(f"tables {tables}")
        for old, new in replace:
            if old not in text:
                raise ValueError(f"{name}: {old} isn't in the tables")
            text = text.replace(old, new, 1)
            self.said += ["replace " + old.replace("\n", "\\n"), ("by " + new.replace("\n", "\\n")).rstrip(" ")]
        self.tables = text
        self.net = tomllib.loads(text)["desk"]["net_id"]
        self.transaction = 0
        records = []
        if before is not None:
            tables = {"tag": "Tables", "moment": 0, "text": text.encode()}
            records = [entries.encoded(entry) for entry in [tables, *before]]
            self.said += ["+t 0"] + [f"+e {record.hex()}" for record in records[1:]]
        self.begin(records, clock)

    def begin(self, records, clock):
        clock = [clock] if isinstance(clock, int) else clock
        self.said.append("clock " + " ".join(map(str, clock)))
        self.moments, self.now = iter(clock[1:]), clock[0]
        self.desk = Desk(self.tables, records, self.now)

    def again(self, clock=1000):
        """The program ends, and is started again on its journal."""
        self.said.append("again")
        self.begin(self.desk.records, clock)

    def mark(self, word, dev, wanted, clock=1000):
        """A run of `suspend` or `resume`."""
        self.said += ["again", f"words {word} --tables T --journal J {dev.eui:016x}"]
        self.begin(self.desk.records, clock)
        said = self.desk.mark(word, dev.eui, self.now)
        if said != f"{wanted} {dev.eui:016x}":
            raise ValueError(f"{self.name}: {wanted} was wanted, and got {said}")
        self.said.append(f"< {said}")

    def entries_wanted(self, *tags):
        """The journal as it is by now; these are the tags of its entries behind Tables and the first Opened."""
        found = [entries.decoded(record) for record in self.desk.records]
        got = tuple(entry["tag"] for entry in found[2:])
        if got != tags:
            raise ValueError(f"{self.name}: {tags} were wanted, and got {got}")
        for entry, record in zip(found, self.desk.records, strict=True):
            self.said.append(f"=t {entry['moment']}" if entry["tag"] == "Tables" else f"=e {record.hex()}")

    def say(self, line, wanted=""):
        read = json.loads(self.say_any(line))
        got = read["Result"]
        codes = CODES | XMIT_CODES if read["MessageType"] == "XmitDataAns" else CODES
        if (got["Description"], got["ResultCode"]) != (wanted, codes[wanted]):
            raise ValueError(f"{self.name}: {wanted} was wanted of {line}, and got {got}")
        return read

    def say_any(self, line):
        self.now = next(self.moments, self.now)
        answer = self.desk.answer(line.encode(), self.now).decode()
        self.said += [f"> {line}", f"< {answer}"]
        return answer

    def say_bare(self, line):
        """A line that is no message: its answer has no head."""
        answer = self.say_any(line)
        if answer != BARE:
            raise ValueError(f"{self.name}: a bare answer was wanted, and got {answer}")

    def next_id(self):
        self.transaction += 1
        return self.transaction

    def uplink_req(self, frame, rate=0, gateway=FIRST, **changes):
        """The text of a gateway's request; a member that is changed to None isn't there."""
        frame = frame if isinstance(frame, str) else frame.hex()
        members = head(gateway, self.net, self.next_id(), "UplinkReq")
        members.update({"PHYPayload": frame, "DataRate": rate}, **changes)
        return request({k: v for k, v in members.items() if v is not None})

    def hears(self, frame, wanted="", rate=0, gateway=FIRST, **changes):
        return self.say(self.uplink_req(frame, rate, gateway, **changes), wanted)

    def join(self, dev, addr=None, gateway=FIRST):
        """A join that is accepted, and opened by the device."""
        return self.activate(dev, dev.join(), addr, gateway)

    def rejoin(self, dev, kind, addr=None, gateway=FIRST):
        return self.activate(dev, dev.rejoin(kind), addr, gateway)

    def activate(self, dev, frame, addr=None, gateway=FIRST):
        answer = self.hears(frame, gateway=gateway)
        dev.accept(bytes.fromhex(answer["PHYPayload"]))
        if addr is not None and dev.session.addr != addr:
            raise ValueError(f"{self.name}: address {addr:08x} was wanted, and got {dev.session.addr:08x}")
        return answer

    def uplink(self, dev, wanted="", gateway=FIRST, rate=0, session=None, **parts):
        """The device's next uplink, or one under an older session of it. Its frame is given."""
        now = dev.session
        dev.session = session or now
        count = parts.get("count", dev.session.up)
        frame = dev.uplink(parts.pop("payload", b"\x01\x02\x03\x04"), rate=rate, **parts)
        dev.session = now
        answer = self.hears(frame, wanted, rate, gateway)
        if not wanted and answer["FCntUp"] != count:
            raise ValueError(f"{self.name}: FCntUp {count} was wanted: {answer}")
        return frame

    def takes(self, dev, wanted, **parts):
        """The device's next uplink, and what the downlink behind it is; None for none."""
        self.uplink(dev, **parts)
        answer = json.loads(self.said[-1][2:])
        told = dev.hear(bytes.fromhex(answer["PHYPayload"])) if "PHYPayload" in answer else None
        if told != wanted:
            raise ValueError(f"{self.name}: {wanted} was wanted, and got {told}")

    def xmit_req(self, dev, number, payload=b"\1\2", port=1, session=None, **changes):
        """The text of an application's request; a member that is changed to None isn't there."""
        members = head("a000000000000001", self.net, self.next_id(), "XmitDataReq")
        seed = (session or dev.session).seed
        meta = {"DevEUI": f"{dev.eui:016x}", "FPort": port, "FCntDown": number}
        members.update({"FRMPayload": payload.hex(), "SessionKeyID": f"{dev.eui:016x}{seed[0]:06x}"})
        for k, v in changes.items():
            if k in ("DevEUI", "FPort", "FCntDown", "Confirmed"):
                meta[k] = v
            else:
                members[k] = v
        members.setdefault("DLMetaData", {k: v for k, v in meta.items() if v is not None})
        return request({k: v for k, v in members.items() if v is not None})

    def queues(self, dev, number, wanted="", **more):
        return self.say(self.xmit_req(dev, number, **more), wanted)

    def text(self):
        return "\n".join(self.said) + "\n"
