#!/usr/bin/env python3
"""scripts.py COUNT SEED FOLDER: writes scripts that bring a card up and do some more, each with a card and losses.

NUMBER.sdv is the script, NUMBER.card the simulated card beside which it runs, NUMBER.blocks how many blocks that card has, and
NUMBER.schedule what the card does at each event: mostly what it should, and else it is slow, silent or cuts a phase. Most of the
scripts have a certificate. The same words make the same files.
"""
import os
import random
import sys

CARDS = {
    "sd": [("version 2\nunit block\ncsize 0\nrca {rca}\n", 1024), ("version 1\nunit byte\ncsize 3\ncmult 0\nrbl 9\nrca {rca}\n", 16)],
    "emmc": [("unit block\nsectors 2048\n", 2048), ("unit block\nsectors 4096\nboot 1\n", 4608), ("unit byte\ncsize 3\ncmult 0\nrbl 9\n", 16)],
}

SD_BEGINS = """send 0 {{ else {{ }} }}
send 8 {{ else {{ }} }}
loop {tries} {{ send 55 {{ app {{ send 41 0x40ff8000 {{ ocr.ready & ocr.block {{ set hc break }} ocr.ready {{ break }} answer {{ }} else {{ fault lost41 }} }} }} else {{ fault lost55 }} }} }} else {{ fault busy }}
"""
EMMC_BEGINS = """send 0 {{ else {{ }} }}
loop {tries} {{ send 1 {{ ocr.ready & ocr.block {{ set hc break }} ocr.ready {{ break }} answer {{ }} else {{ fault lost1 }} }} }} else {{ fault busy }}
"""
IDENTIFIES = """send 2 { answer { } else { fault cid } }
send 3 { clean { } else { fault rca } }
send 9 { answer { } else { fault csd } }
send 7 { clean { } else { fault select } }
send 16 { clean { } else { fault blen } }
"""
EMMC_CAPACITY = """if hc { send 8 { clean { recv reg { ok { let cap = ext.blocks } else { fault ext } } } else { fault ext } } } else { let cap = csd.blocks }
"""

# How a script waits until the card has ended what it does.
READY = [
    "loop {n} {{ wait {{ ok {{ break }} else {{ }} }} }} else {{ fault slow }}",
    "loop {n} {{ send 13 {{ clean & ready & state=tran {{ break }} else {{ }} }} }} else {{ fault slow }}",
]
AGAIN = "loop {n} {{ send 13 {{ clean & state=tran {{ break }} answer {{ }} else {{ }} }} }} else {{ fault lost13 }}"

ANY_KIND = [
    "send 16 {{ clean {{ }} else {{ fault blen }} }}",
    "send 13 {{ clean & state=tran {{ }} else {{ fault st }} }}",
    "loop {n} {{ send 13 {{ clean & ready & state=tran {{ break }} else {{ }} }} }} else {{ fault busy }}",
    "send 17 at by hc {a} {{ clean {{ recv {{ ok {{ }} else {{ fault rd }} }} }} else {{ fault rd }} }}",
    "loop {n} {{ send 17 at by hc {a} {{ clean {{ recv {{ ok {{ break }} else {{ }} }} }} else {{ }} }} {again} }} else {{ fault rd }}",
    "let x = {a} loop {m} {{ if x < {limit} {{ send 17 at by hc x {{ clean {{ recv {{ ok {{ }} else {{ fault rd }} }} }} else {{ fault rd }} }} let x = x + 1 }} else {{ break }} }} else {{ }}",
    "let x = {a} if x < {limit} {{ send 17 at by hc x + {b} {{ clean {{ recv {{ ok {{ }} else {{ fault rd }} }} }} else {{ fault rd }} }} }} else {{ }}",
    "send 18 at by hc {a} count {c} {{ clean {{ }} else {{ fault rd }} }} recv {{ ok {{ }} else {{ fault rd }} }} send 12 {{ answer {{ }} else {{ fault rd }} }} {again}",
    "send 24 at by hc {a} {{ clean {{ }} else {{ fault wr }} }} give {{ ok {{ }} else {{ fault wr }} }} {ready} {again}",
    "send 25 at by hc {a} count {c} {{ clean {{ }} else {{ fault wr }} }} give {{ ok {{ }} else {{ fault wr }} }} send 12 {{ clean {{ }} else {{ fault wr }} }} {ready} {again}",
    "send 7 none {{ else {{ }} }} send 10 {{ answer {{ }} else {{ fault cid }} }} send 7 {{ clean {{ }} else {{ fault select }} }}",
    "if g {{ let x = {a} clear g }} else {{ set g let x = cap - {b} }}",
    "let x = cap - {b} if x >= {a} {{ set g }} else {{ clear g }}",
    "loop {m} {{ loop {m} {{ if g {{ break }} else {{ set g }} }} else {{ }} clear g }} else {{ }}",
    "let x = x + {big}",
    "if g {{ fault flag }} else {{ }}",
]
SD = [
    "send 32 at by hc {a} {{ clean {{ }} else {{ fault er }} }} send 33 at by hc {a} {{ clean {{ }} else {{ fault er }} }} send 38 {{ clean {{ }} else {{ fault er }} }} {ready} {again}",
    "send 55 {{ app {{ send 51 {{ clean {{ recv reg {{ ok {{ }} else {{ fault scr }} }} }} else {{ fault scr }} }} }} else {{ fault noapp }} }}",
    "send 55 {{ app {{ send 13 {{ clean {{ recv reg {{ ok {{ }} else {{ fault st }} }} }} else {{ fault st }} }} }} else {{ fault noapp }} }}",
    "send 55 {{ app {{ send 6 bus.lines 4 {{ clean {{ bus.lines 4 }} else {{ fault bw }} }} }} else {{ fault noapp }} }}",
]
EMMC = [
    "send 35 at by hc {a} {{ clean {{ }} else {{ fault er }} }} send 36 at by hc {a} {{ clean {{ }} else {{ fault er }} }} send 38 1 {{ clean {{ }} else {{ fault er }} }} {ready} {again}",
    "send 23 count {c} {{ clean {{ }} else {{ fault st }} }} send 18 at by hc {a} count {c} {{ clean {{ recv {{ ok {{ }} else {{ fault rd }} }} }} else {{ fault rd }} }} {again}",
    "send 23 count {c} {{ clean {{ }} else {{ fault st }} }} send 25 at by hc {a} count {c} {{ clean {{ give {{ ok {{ }} else {{ fault wr }} }} }} else {{ fault wr }} }} {ready} {again}",
    "send 8 {{ clean {{ recv reg {{ ok {{ let x = ext.blocks }} else {{ fault ext }} }} }} else {{ fault ext }} }}",
    "send 6 bus.lines 8 {{ clean {{ }} else {{ fault sw }} }} {ready} send 13 {{ clean & state=tran {{ bus.lines 8 }} else {{ fault sw }} }}",
    "send 6 part.access 0 {{ clean {{ }} else {{ fault sw }} }} {ready} send 13 {{ clean & state=tran {{ }} else {{ fault sw }} }}",
    "send 8 {{ clean {{ recv reg {{ ok {{ let x = ext.boot }} else {{ fault ext }} }} }} else {{ fault ext }} }} if x >= 1 {{ set g }} else {{ clear g }}",
]


def statement(chance, form):
    """A form with its numbers: addresses and counts that lie on each card, turns, and ways to wait."""
    again = AGAIN.format(n=chance.randint(1, 60))
    ready = chance.choice(READY).format(n=chance.randint(1, 300))
    return form.format(a=chance.randrange(8), b=chance.randrange(1, 5), c=chance.choice([1, 2, 3, 8]), m=chance.randint(1, 5),
                       n=chance.randint(1, 40), limit=chance.randint(1, 12), big=chance.choice([0, 7, 4294967296, 1099511627776]),
                       again=again, ready=ready)


def script(chance, kind):
    begins = (SD_BEGINS if kind == "sd" else EMMC_BEGINS).format(tries=chance.choice([5, 100, 1000, 65535]))
    capacity = "let cap = csd.blocks\n" if kind == "sd" else EMMC_CAPACITY
    forms = ANY_KIND + 2 * (SD if kind == "sd" else EMMC)
    body = [statement(chance, chance.choice(forms)) for _ in range(chance.randint(0, 6))]
    return "".join([f"card {kind}\nflags hc g\nnums cap x\n", begins, IDENTIFIES, capacity, "if cap >= 16 { } else { fault small }\n",
                    "\n".join(body), "\n", chance.choice(["done\n", "done\n", "done\n", "fault stop\n"])])


def schedule(chance):
    """Digits for the events: no losses, rare ones, or many."""
    losses = chance.choice([0, 0.02, 0.1, 0.4])
    return "".join(str(chance.randint(1, 7)) if chance.random() < losses else "0" for _ in range(chance.randrange(200)))


def main():
    count, seed, folder = int(sys.argv[1]), int(sys.argv[2]), sys.argv[3]
    for number in range(count):
        chance = random.Random(seed * 1000003 + number)
        kind = "sd" if number % 2 else "emmc"
        description, blocks = chance.choice(CARDS[kind])
        texts = {"sdv": script(chance, kind), "card": f"card {kind}\n" + description.format(rca=chance.randint(1, 65535)),
                 "blocks": f"{blocks}\n", "schedule": schedule(chance)}
        for ending, text in texts.items():
            with open(os.path.join(folder, f"{number}.{ending}"), "w", encoding="ascii") as file:
                file.write(text)


main()
