"""Cases: conversations of simulated devices, drawn by chance."""

import random

from common import LIST
from device import ADR
from talk import FIRST, SECOND, Talk, device


def traffic():
    for seed in range(1, 13):
        chance = random.Random(seed)
        talk = Talk(f"devices join, send and rejoin through two gateways: conversation {seed}", replace=[LIST] * (seed % 2))
        devices = [device(i) for i in chance.sample(range(1, 33), 1 + seed % 4)]
        frame = None
        for _ in range(24):
            dev, gateway = chance.choice(devices), chance.choice((FIRST, SECOND))
            act = chance.randrange(10)
            if dev.session is None or act == 0:
                talk.join(dev, gateway=gateway)
            elif act < 3:
                talk.rejoin(dev, chance.randrange(3), gateway=gateway)
            elif act == 3 and frame:
                heard = talk.uplink_req(frame, 0, gateway)
                talk.say_any(heard)
            else:
                frame = talk.uplink(
                    dev,
                    gateway=gateway,
                    payload=chance.randbytes(chance.randrange(30)),
                    port=chance.randrange(1, 224),
                    flags=ADR * chance.randrange(2),
                    fopts=chance.randbytes(chance.choice((0, 0, 3))),
                    channel=chance.choice(dev.session.channels),
                    rate=chance.randrange(6),
                    count=dev.session.up + chance.choice((0, 0, 0, 1, 300)),
                )
        yield talk
