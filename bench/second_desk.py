"""A second desk, for the expected answers of the suite's cases: a join server, and a home network that hears gateways.

It decides by the rules of docs/OPERATING.md over the standard's formulas (formulas.py), changes its state by the entries that it
writes (entries.py), and is independent of lwdesk. bench/cases compares the suite's cases with it.
"""

import tomllib
from dataclasses import dataclass, field

import entries
from formulas import (
    JOIN,
    PAYLOAD_LIMIT,
    accept,
    address_of,
    app_s_key,
    channels,
    down_frame,
    e_key,
    f_key,
    first_window_rate,
    full_count,
    has_data_size,
    is_signed,
    js_int,
    number_at,
    s_key,
    up_mic,
    wrapped,
)
from messages import COMMON, LIMIT, TYPES, XMIT, XMIT_OF_NETWORKS, BadJson, Gap, digits, dumps, load, members, name

LAST_MOMENT = 2**53
LAST_NONCE = 2**24 - 1
SPENT = 2**32
KEPT, SEEDS, ITEMS = 64, 4, 8


class Refusal(Exception):
    """A ResultCode and its Description."""

    def __init__(self, code, said):
        super().__init__(code, said)
        self.code, self.said = code, said


@dataclass
class Context:
    addr: int
    seed: tuple
    radio: tuple
    last: int | None = None
    frame: bytes = b""
    conf: int | None = None
    next_n: int = 0
    next_a: int = 0
    queue: list = field(default_factory=list)


@dataclass
class Device:
    number: int
    eui: int
    join_eui: int
    nwk: bytes
    app_key: bytes
    home: int
    app: int
    carries: bool
    dev_nonce: int | None = None
    rj1: int | None = None
    join_nonce: int = 0
    seeds: list = field(default_factory=list)  # [seed, last RJcount0], the newest first
    suspended: bool = False
    active: Context | None = None
    pending: Context | None = None

    def contexts(self):
        return [c for c in (self.active, self.pending) if c]

    def is_pending_seed(self, seed):
        return self.pending is not None and self.pending.seed == seed

    def activate(self):
        self.active, self.pending = self.pending, None


@dataclass
class Step:
    """A join or rejoin that was accepted: its kind, its counter, the place of the used seed and the new seed."""

    kind: int
    counter: int
    used: int | None
    seed: tuple


def hexadecimal(text):
    return int(digits(text), 16)


def key_bytes(text):
    return bytes.fromhex(digits(text))


def session_name(d, seed):
    return f"{d.eui:016x}{seed[0]:06x}"


class Desk:
    """A desk over a tables text and the records of a journal. The entries of this life are in `written`."""

    def __init__(self, tables, records=(), now=0):
        self.read_tables(tables)
        self.kept = {}
        self.moment = 0
        for record in records:
            self.apply(entries.decoded(record))
        self.records = list(records)
        if not self.records:
            self.write({"tag": "Tables", "text": tables.encode()}, self.moment_at(now))
        self.write({"tag": "Opened"}, self.moment_at(now))

    def read_tables(self, tables):
        t = tomllib.loads(tables)
        desk = t["desk"]
        self.net = hexadecimal(desk["net_id"])
        self.join_euis = [hexadecimal(e) for e in desk["join_euis"]]
        cf = key_bytes(desk.get("cf_list", ""))
        self.radio = (hexadecimal(desk["dl_settings"]), desk["rx_delay"], cf)
        self.lifetime = desk.get("lifetime_s", 31536000)
        self.networks = {hexadecimal(r["net_id"]): r for r in t.get("network", [])}
        self.applications = {hexadecimal(r["app_id"]): r for r in t.get("application", [])}
        self.gateways = {hexadecimal(r["gateway_id"]) for r in t.get("gateway", [])}
        rows = [
            Device(
                number,
                hexadecimal(r["dev_eui"]),
                hexadecimal(r["join_eui"]),
                key_bytes(r["nwk_key"]),
                key_bytes(r["app_key"]),
                hexadecimal(r["home"]),
                hexadecimal(r["app"]),
                r.get("carry_app", False),
            )
            for number, r in enumerate(t.get("device", []))
        ]
        self.rows = rows
        self.devices = {d.eui: d for d in rows}

    # Entries.

    def moment_at(self, now):
        return max(min(now, LAST_MOMENT), self.moment)

    def write(self, entry, moment):
        record = entries.encoded(dict(entry, moment=moment))
        self.records.append(record)
        self.apply(entries.decoded(record))

    def apply(self, entry):
        self.moment = entry["moment"]
        if "body" in entry:
            kept = self.kept.setdefault(entry["sender"], [])
            kept.insert(0, (entry["body"], entry["answer"]))
            del kept[KEPT:]
        change = getattr(self, "apply_" + entry["tag"].lower(), None)
        if change:
            change(entry)

    def apply_join(self, entry):
        d = self.rows[entry["device"]]
        d.dev_nonce = entry["counter"]
        self.activated(d, entry)

    def apply_rejoin(self, entry):
        d = self.rows[entry["device"]]
        if entry["kind"] == 1:
            d.rj1 = entry["counter"]
        else:
            used = d.seeds[entry["used"]]
            used[1] = entry["counter"]
            if d.is_pending_seed(used[0]):
                d.activate()
        self.activated(d, entry)

    def activated(self, d, entry):
        d.join_nonce = entry["nonce"]
        seed = (entry["nonce"], d.join_eui, entry["counter"])
        d.seeds.insert(0, [seed, None])
        del d.seeds[SEEDS:]
        if entry["own"]:
            addr, radio = entry["own"]
            d.pending = Context(addr, seed, radio)

    def apply_up(self, entry):
        d = self.devices[entry["dev"]]
        if entry["pending"]:
            d.activate()
        c = d.active
        c.last, c.frame = entry["count"], entry["frame"]
        if entry["down"] == 1:
            c.next_n += 1
        elif entry["down"] == 2:
            number, _, confirmed, _ = c.queue.pop(0)
            if confirmed:
                c.conf = number % 65536

    def apply_queue(self, entry):
        c = self.rows[entry["device"]].active
        c.queue.append((entry["number"], entry["port"], entry["confirmed"], entry["payload"]))
        c.next_a = entry["number"] + 1

    def apply_suspend(self, entry):
        self.rows[entry["device"]].suspended = True

    def apply_resume(self, entry):
        self.rows[entry["device"]].suspended = False

    # A line and its answer.

    def answer(self, body, now=0):
        """The bytes of the answer to a body, without the line's end."""
        moment = self.moment_at(now)
        try:
            if len(body) > LIMIT:
                raise BadJson
            v = load(body)
            head = members(v, COMMON)
        except (BadJson, Gap):
            return dumps({"MessageType": "ErrorNotif", "Result": result(Refusal("MalformedRequest", "message"))})
        try:
            return self.decided(head, v, body, moment)
        except Refusal as refusal:
            return self.answer_text(head, refusal)

    def type_of(self, kind, v):
        """The kinds of the sender and of the receiver, and the members; None for a type that isn't served."""
        if kind == "XmitDataReq":
            return XMIT_OF_NETWORKS if "PHYPayload" in v else XMIT
        return TYPES.get(kind)

    def answer_text(self, head, refusal, more=None):
        kind = head["MessageType"]
        version = "1.1" if refusal and refusal.said == "version" else head["ProtocolVersion"]
        return dumps({
            "MessageType": kind[:-3] + "Ans" if self.type_of(kind, {}) else "ErrorNotif",
            "ProtocolVersion": version,
            "ReceiverID": name(head["SenderID"]),
            "Result": result(refusal),
            "SenderID": name(head["ReceiverID"]),
            "TransactionID": head["TransactionID"],
            **(more or {}),
        })

    def decided(self, head, v, body, moment):
        kind, sender = head["MessageType"], head["SenderID"]
        of_type = self.type_of(kind, v)
        try:
            m = members(v, of_type[2] if of_type else [])
        except Gap:
            raise Refusal("MalformedRequest", "message") from None
        self.check_head(head, of_type)
        for old, answer in self.kept.get(sender, []):
            if old == body:
                return answer
        more, entry = getattr(self, kind)(m, head)
        answer = self.answer_text(head, None, more)
        if entry:
            self.write(dict(entry, sender=sender, body=body, answer=answer), moment)
        return answer

    def check_head(self, head, of_type):
        if head["ProtocolVersion"] not in ("1.0", "1.1"):
            raise Refusal("InvalidProtocolVersion", "version")
        of, n = head["SenderID"]
        kinds = {"network": self.networks, "application": self.applications, "gateway": self.gateways}
        if of == "net":
            del kinds["application"], kinds["gateway"]
        else:
            del kinds["network"]
        sender = next((kind for kind, rows in kinds.items() if n in rows), None)
        if sender is None:
            raise Refusal("UnknownSender", "sender")
        own = {"eui": self.join_euis, "net": [self.net]}
        from_kind, to_kind, _ = of_type or (None, None, None)
        of, n = head["ReceiverID"]
        if to_kind not in (None, of) or n not in own[of]:
            raise Refusal("UnknownReceiver", "receiver")
        if sender != from_kind:
            raise Refusal("MalformedRequest", "type")

    def wrapped_key(self, row, key):
        return {"AESKey": wrapped(key_bytes(row["kek"]), key).hex(), "KEKLabel": row["kek_label"]}

    # The join server.

    def HomeNSReq(self, m, _):
        return {"HNetID": f"{self.row_of(m['DevEUI']).home:06x}"}, None

    def AppSKeyReq(self, m, head):
        d = self.row_of(m["DevEUI"])
        if d.app != head["SenderID"][1]:
            raise Refusal("UnknownDevEUI", "device")
        dev, nonce = m["SessionKeyID"]
        for seed, _ in d.seeds:
            if (d.eui, seed[0]) == (dev, nonce):
                key = self.wrapped_key(self.applications[d.app], app_s_key(d.app_key, seed))
                return {"AppSKey": key, "DevEUI": f"{d.eui:016x}", "SessionKeyID": session_name(d, seed)}, None
        raise Refusal("Other", "session")

    def JoinReq(self, m, head):
        return self.for_its_home(m, head, "join")

    def RejoinReq(self, m, head):
        return self.for_its_home(m, head, "rejoin")

    def for_its_home(self, m, head, wanted):
        frame = m["PHYPayload"]
        check_size(frame)
        radio = (m["DLSettings"], m["RxDelay"], m["CFList"])
        if form_of(frame) != wanted or not is_version(m["MACVersion"]) or not is_radio(radio):
            raise Refusal("MalformedRequest", "frame")
        if dev_of(frame) != m["DevEUI"]:
            raise Refusal("MalformedRequest", "frame")
        d = self.row_of(m["DevEUI"])
        if head["SenderID"] != ("net", d.home):
            raise Refusal("ActivationDisallowed", "home")
        if d.suspended:
            raise Refusal("ActivationDisallowed", "suspended")
        step = self.join_step(d, frame)
        row = self.networks[d.home]
        more = {
            "FNwkSIntKey": self.wrapped_key(row, f_key(d.nwk, step.seed)),
            "SNwkSIntKey": self.wrapped_key(row, s_key(d.nwk, step.seed)),
            "NwkSEncKey": self.wrapped_key(row, e_key(d.nwk, step.seed)),
            "Lifetime": self.lifetime,
            "PHYPayload": accept(d.nwk, d.eui, step.kind, step.seed, d.home, m["DevAddr"], radio).hex(),
            "SessionKeyID": session_name(d, step.seed),
        }
        if d.carries:
            more["AppSKey"] = self.wrapped_key(self.applications[d.app], app_s_key(d.app_key, step.seed))
        return more, step_entry(d, step, None)

    def row_of(self, dev):
        if dev not in self.devices:
            raise Refusal("UnknownDevEUI", "device")
        return self.devices[dev]

    def join_step(self, d, frame):
        counter = number_at(frame, len(frame) - 6, 2)
        kind = JOIN if form_of(frame) == "join" else frame[1]
        named = number_at(frame, 2, 3) if kind in (0, 2) else number_at(frame, 1 if kind == JOIN else 2, 8)
        if named != (d.home if kind in (0, 2) else d.join_eui):
            raise Refusal("JoinReqFailed", "eui")
        used = None
        if kind == JOIN:
            valid, last = is_signed(d.nwk, frame), d.dev_nonce
        elif kind == 1:
            valid, last = is_signed(js_int(d.nwk, d.eui), frame), d.rj1
        else:
            used = next((k for k, (seed, _) in enumerate(d.seeds) if is_signed(s_key(d.nwk, seed), frame)), None)
            valid, last = used is not None, None if used is None else d.seeds[used][1]
        if not valid:
            raise Refusal("MICFailed", "mic")
        if last is not None and counter <= last:
            raise Refusal("JoinReqFailed", "counter")
        if d.join_nonce == LAST_NONCE:
            raise Refusal("JoinReqFailed", "spent")
        return Step(kind, counter, used, (d.join_nonce + 1, d.join_eui, counter))

    # The home network.

    def UplinkReq(self, m, _):
        frame = m["PHYPayload"]
        check_size(frame)
        form = form_of(frame)
        if form is None:
            raise Refusal("MalformedRequest", "frame")
        if form == "data":
            return self.heard(frame, m["DataRate"])
        d = self.devices.get(dev_of(frame))
        if d is None or d.home != self.net:
            raise Refusal("UnknownDevEUI", "device")
        if d.suspended:
            raise Refusal("ActivationDisallowed", "suspended")
        step = self.join_step(d, frame)
        others = [c.addr for other in self.rows if other is not d for c in other.contexts()]
        own = d.contexts()
        used = None if step.used is None else d.seeds[step.used][0]
        if step.used is not None and d.is_pending_seed(used):
            own = [d.pending]  # it becomes active, and the address of the old active one is free
        taken = set(others + [c.addr for c in own])
        n = 0
        while (addr := address_of(self.net, n)) in taken:
            n += 1
        if addr is None:
            raise Refusal("Other", "addresses spent")
        kept_radio = [c.radio for c in own if step.kind == 2 and c.seed == used]
        radio = kept_radio[0] if kept_radio else self.radio
        more = {
            "DevEUI": f"{d.eui:016x}",
            "PHYPayload": accept(d.nwk, d.eui, step.kind, step.seed, d.home, addr, radio).hex(),
            "SessionKeyID": session_name(d, step.seed),
        }
        return more, step_entry(d, step, (addr, radio))

    def heard(self, frame, rate):
        addr = number_at(frame, 1, 4)
        found = [(d, c) for d in self.rows for c in d.contexts() if c.addr == addr]
        if not found:
            raise Refusal("UnknownDevAddr", "address")
        d, c = found[0]
        more = {"DevEUI": f"{d.eui:016x}", "SessionKeyID": session_name(d, c.seed)}
        if frame == c.frame:
            return dict(more, FCntUp=c.last), None
        count, channel = self.valid_up(d, c, frame, rate)
        down, text = self.downlink(d, c, frame, count, rate)
        more["FCntUp"] = count
        if down:
            more["PHYPayload"] = text.hex()
        return more, {
            "tag": "Up",
            "dev": d.eui,
            "pending": int(c is d.pending),
            "count": count,
            "frame": frame,
            "channel": channel,
            "down": down,
        }

    def valid_up(self, d, c, frame, rate):
        count = full_count(c.last, number_at(frame, 6, 2))
        if count is None:
            raise Refusal("MICFailed", "mic")
        f, s = f_key(d.nwk, c.seed), s_key(d.nwk, c.seed)
        conf = c.conf if frame[5] & 32 and c.conf is not None else 0
        for channel in channels(c.radio[2]):
            if up_mic(f, s, frame[:-4], count, conf, rate, channel) == frame[-4:]:
                return count, channel
        raise Refusal("MICFailed", "mic")

    def downlink(self, d, c, frame, count, rate):
        """Which downlink follows an accepted uplink, none (0), an empty one (1) or the first item (2), and its bytes."""
        confirmed = frame[0] == 0x80
        s, ack = s_key(d.nwk, c.seed), count if confirmed else None
        if c.queue and len(c.queue[0][3]) <= PAYLOAD_LIMIT[first_window_rate(rate, c.radio[0])]:
            number, port, item_confirmed, payload = c.queue[0]
            waits = len(c.queue) > 1
            return 2, down_frame(s, c.addr, number, bool(item_confirmed), ack, waits, port, payload)
        if (confirmed or frame[5] & 64) and c.next_n < SPENT:
            return 1, down_frame(s, c.addr, c.next_n, False, ack, bool(c.queue))
        return 0, None

    def XmitDataReq(self, m, head):
        if len(m["FRMPayload"]) > 242:
            raise Refusal("FrameSizeError", "size")
        d = self.devices.get(m["DLMetaData.DevEUI"])
        if d is None or (d.home, d.app) != (self.net, head["SenderID"][1]):
            raise Refusal("UnknownDevEUI", "device")
        if not 1 <= m["DLMetaData.FPort"] <= 223:
            raise Refusal("InvalidFPort", "port")
        if d.active is None or m["SessionKeyID"] != (d.eui, d.active.seed[0]):
            raise Refusal("XmitFailed", "session")
        if m["DLMetaData.FCntDown"] < d.active.next_a:
            raise Refusal("XmitFailed", "counter")
        if len(d.active.queue) == ITEMS:
            raise Refusal("XmitFailed", "queue full")
        return {}, {
            "tag": "Queue",
            "device": d.number,
            "number": m["DLMetaData.FCntDown"],
            "port": m["DLMetaData.FPort"],
            "confirmed": int(m["DLMetaData.Confirmed"]),
            "payload": m["FRMPayload"],
        }

    # Marks.

    def mark(self, word, dev, now):
        """What `suspend` or `resume` prints of a device that has a row."""
        d = self.devices[dev]
        if d.suspended == (word == "suspend"):
            return f"already {'suspended' if d.suspended else 'open'} {dev:016x}"
        self.write({"tag": word.capitalize(), "device": d.number}, self.moment_at(now))
        return f"{'suspended' if d.suspended else 'resumed'} {dev:016x}"


def result(refusal):
    if refusal is None:
        return {"Description": "", "ResultCode": "Success"}
    return {"Description": refusal.said, "ResultCode": refusal.code}


def step_entry(d, step, own):
    entry = {"tag": "Join", "device": d.number, "counter": step.counter, "nonce": step.seed[0], "own": own}
    if step.kind == JOIN:
        return entry
    used = entries.NO_SEED if step.used is None else step.used
    return dict(entry, tag="Rejoin", kind=step.kind, used=used)


# Frames as they come.


def check_size(frame):
    bits = frame[0] >> 5 if frame else None
    wrong = {0: len(frame) != 23, 6: len(frame) not in (19, 24), None: True}
    wrong[2] = wrong[4] = not has_data_size(frame)
    if wrong.get(bits, False):
        raise Refusal("FrameSizeError", "size")


def form_of(frame):
    """Of a frame with a right size: what it is, None where its first bytes are no frame's that goes up."""
    if frame[0] == 0:
        return "join"
    if frame[0] == 0xC0 and (len(frame), frame[1]) in ((19, 0), (19, 2), (24, 1)):
        return "rejoin"
    return "data" if frame[0] in (0x40, 0x80) else None


def dev_of(frame):
    at = 9 if frame[0] == 0 else 10 if frame[1] == 1 else 5
    return number_at(frame, at, 8)


def is_version(text):
    head, rest = text[:4], text[4:]
    return text == "1.1" or (head == "1.1." and rest != "" and all(c in "0123456789" for c in rest))


def is_radio(radio):
    dl, _, cf = radio
    return dl >= 128 and (dl >> 4 & 7) <= 5 and (not cf or cf[15] == 0)
