"""The entries of a desk's journal, byte by byte as docs/FORMATS.md has them, and the journal's records.

For the second desk (second_desk.py), and independent of lwdesk. An entry is a dict with its "tag", its "moment" and its fields.
Entries of roaming aren't here.
"""

TEXT = b"LWDESK-JOURNAL-1"


class Number:
    def __init__(self, size):
        self.size = size

    def put(self, n):
        return n.to_bytes(self.size, "big")

    def take(self, text, at):
        return int.from_bytes(text[at : at + self.size], "big"), at + self.size


class Bytes:
    """Bytes behind their length."""

    def __init__(self, size):
        self.length = Number(size)

    def put(self, text):
        return self.length.put(len(text)) + text

    def take(self, text, at):
        n, at = self.length.take(text, at)
        return text[at : at + n], at + n


class Option:
    def __init__(self, form):
        self.form = form

    def put(self, v):
        return b"\x00" if v is None else b"\x01" + self.form.put(v)

    def take(self, text, at):
        return self.form.take(text, at + 1) if text[at] else (None, at + 1)


class Row:
    """One form after the other, as a tuple."""

    def __init__(self, *forms):
        self.forms = forms

    def put(self, values):
        return b"".join(form.put(v) for form, v in zip(self.forms, values, strict=True))

    def take(self, text, at):
        values = []
        for form in self.forms:
            v, at = form.take(text, at)
            values.append(v)
        return tuple(values), at


class Party:
    """A sender: ("net", NetID) or ("eui", EUI)."""

    def put(self, party):
        return b"\x00" + NET.put(party[1]) if party[0] == "net" else b"\x01" + EUI.put(party[1])

    def take(self, text, at):
        v, end = (EUI if text[at] else NET).take(text, at + 1)
        return ("eui" if text[at] else "net", v), end


class CFList:
    """The sixteen bytes of a CFList behind 01; 00 for none, which is an empty text here."""

    def put(self, cf):
        return b"\x01" + cf if cf else b"\x00"

    def take(self, text, at):
        return (text[at + 1 : at + 17], at + 17) if text[at] else (b"", at + 1)


BYTE, COUNT, NONCE, NET, WORD, EUI, MOMENT = Number(1), Number(2), Number(3), Number(3), Number(4), Number(8), Number(8)
OWN = Option(Row(WORD, Row(BYTE, BYTE, CFList())))
REQUEST = [("sender", Party()), ("body", Bytes(2)), ("answer", Bytes(2))]
FORMS = {
    "Opened": (0x01, []),
    "Tables": (0x02, [("text", Bytes(4))]),
    "Join": (0x03, REQUEST + [("device", WORD), ("counter", COUNT), ("nonce", NONCE), ("own", OWN)]),
    "Rejoin": (
        0x04,
        REQUEST + [("device", WORD), ("kind", BYTE), ("used", BYTE), ("counter", COUNT), ("nonce", NONCE), ("own", OWN)],
    ),
    "Up": (
        0x06,
        REQUEST
        + [("dev", EUI), ("pending", BYTE), ("count", WORD), ("frame", Bytes(2)), ("channel", BYTE), ("down", BYTE)],
    ),
    "Queue": (
        0x08,
        REQUEST + [("device", WORD), ("number", WORD), ("port", BYTE), ("confirmed", BYTE), ("payload", Bytes(2))],
    ),
    "Suspend": (0x0C, [("device", WORD)]),
    "Resume": (0x0D, [("device", WORD)]),
}
NO_SEED = 0xFF


def encoded(entry):
    tag, forms = FORMS[entry["tag"]]
    return bytes([tag]) + MOMENT.put(entry["moment"]) + b"".join(form.put(entry[name]) for name, form in forms)


def decoded(text):
    tag, forms = next((tag, forms) for tag, (byte, forms) in FORMS.items() if byte == text[0])
    moment, at = MOMENT.take(text, 1)
    entry = {"tag": tag, "moment": moment}
    for name, form in forms:
        entry[name], at = form.take(text, at)
    if encoded(entry) != text:
        raise ValueError(f"no entry: {text.hex()}")
    return entry


def journal(records):
    """A journal of these records."""
    return TEXT + b"".join(b"\x01" + Bytes(4).put(record) for record in records) + b"\x00"


def records(journal):
    """The records of a journal."""
    found, at = [], 16
    while at < len(journal) and journal[at] == 1:
        record, end = Bytes(4).take(journal, at + 1)
        if end >= len(journal):
            break
        found.append(record)
        at = end
    return found
