"""Requests of the Backend Interfaces as JSON texts: which texts are one, and the members of each type.

For the second desk (second_desk.py), and independent of lwdesk. A reader of a member gives None for what hasn't its form.
"""

import json
import math

LIMIT = 8192


class BadJson(Exception):
    pass


class Gap(Exception):
    """A member that is missing, or hasn't its form."""


def digits(v):
    if not isinstance(v, str):
        return None
    if v[:2] in ("0x", "0X"):
        v = v[2:]
    return v if all(ch in "0123456789abcdefABCDEF" for ch in v) else None


def hexed(v, size=None):
    d = digits(v)
    if d is None or len(d) % 2 or (size is not None and len(d) != 2 * size):
        return None
    return bytes.fromhex(d)


def number_of(size):
    def read(v):
        b = hexed(v, size)
        return None if b is None else int.from_bytes(b, "big")

    return read


def below(limit):
    return lambda v: v if type(v) is int and 0 <= v < limit else None


def party(v):
    net, eui = number_of(3)(v), number_of(8)(v)
    if net is not None:
        return ("net", net)
    return None if eui is None else ("eui", eui)


def name(party):
    return f"{party[1]:06x}" if party[0] == "net" else f"{party[1]:016x}"


def text(v):
    return v if isinstance(v, str) else None


def cf_list(v):
    b = hexed(v)
    return None if b is None or len(b) not in (0, 16) else b


def truth(v):
    return v if isinstance(v, bool) else None


def session_id(v):
    b = hexed(v, 11)
    return None if b is None else (int.from_bytes(b[:8], "big"), int.from_bytes(b[8:], "big"))


EUI, ADDR = number_of(8), number_of(4)

COMMON = [
    ("ProtocolVersion", text),
    ("SenderID", party),
    ("ReceiverID", party),
    ("TransactionID", below(2**32)),
    ("MessageType", text),
]
JOINS = [
    ("MACVersion", text),
    ("PHYPayload", hexed),
    ("DevEUI", EUI),
    ("DevAddr", ADDR),
    ("DLSettings", number_of(1)),
    ("RxDelay", below(16)),
    ("CFList", cf_list),
]
# Each type: the kind of its sender, the kind of its receiver, its members.
TYPES = {
    "JoinReq": ("network", "eui", JOINS),
    "RejoinReq": ("network", "eui", JOINS),
    "AppSKeyReq": ("application", "eui", [("DevEUI", EUI), ("SessionKeyID", session_id)]),
    "HomeNSReq": ("network", "eui", [("DevEUI", EUI)]),
    "UplinkReq": ("gateway", "net", [("PHYPayload", hexed), ("DataRate", below(8))]),
}
# What an application sends down to a device; of a network's, which has a PHYPayload, no sender is served yet.
XMIT = (
    "application",
    "net",
    [
        ("FRMPayload", hexed),
        ("SessionKeyID", session_id),
        ("DLMetaData.DevEUI", EUI),
        ("DLMetaData.FPort", below(256)),
        ("DLMetaData.FCntDown", below(2**32)),
        ("DLMetaData.Confirmed", truth),
    ],
)
XMIT_OF_NETWORKS = (None, "net", [("PHYPayload", hexed), ("ULMetaData.DataRate", below(8))])
OPTIONAL = {"CFList": b"", "DLMetaData.Confirmed": False}


def depth(body):
    """How many arrays and objects of a JSON text are open at once, at most."""
    open_now = most = 0
    inside = escaped = False
    for ch in body:
        if inside:
            inside = escaped or ch != '"'
            escaped = ch == "\\" and not escaped
        elif ch == '"':
            inside = True
        elif ch in "[{":
            open_now += 1
            most = max(most, open_now)
        elif ch in "]}":
            open_now -= 1
    return most


def whole(digits):
    n = int(digits)
    return float(n) if digits == "-0" or n >= 2**64 or n < -(2**63) else n


def fraction(digits):
    f = float(digits)
    if math.isinf(f):
        raise BadJson
    return f


def refused(_):
    raise BadJson


def load(body):
    """The object that a body is; BadJson where it is none, as serde_json judges it."""
    try:
        v = json.loads(body.decode(), parse_int=whole, parse_float=fraction, parse_constant=refused)
        json.dumps(v, ensure_ascii=False).encode()
    except (ValueError, RecursionError, OverflowError):
        raise BadJson from None
    if not isinstance(v, dict) or depth(body.decode()) > 127:
        raise BadJson
    return v


def members(v, forms):
    """The members of an object by their forms, in order; Gap at the first that is missing or ill-formed."""
    found = {}
    for member, form in forms:
        outer, _, inner = member.rpartition(".")
        place = v.get(outer) if outer else v
        if not isinstance(place, dict):
            raise Gap(member)
        found[member] = form(place[inner]) if inner in place else OPTIONAL.get(member)
        if found[member] is None:
            raise Gap(member)
    return found


def dumps(v):
    return json.dumps(v, sort_keys=True, separators=(",", ":"), ensure_ascii=False).encode()
