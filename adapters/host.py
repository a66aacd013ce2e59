#!/usr/bin/env python3
"""A host over the lines of docs/PROTOCOL.md: brings an SD card up, writes block 3, reads it back, and meets a lost answer.

    host.py PROGRAM WORD..      as in: host.py sdv card examples/sd_block.card new:1024

PROGRAM answers requests on its standard streams, as `sdv card` and adapters/qemu-sdhci do, or a program that talks to a device
behind a serial line. Each request is printed with its answer. The status is 0 where the block was read as it was written.
"""
import subprocess
import sys


class Card:
    def __init__(self, words):
        self.process = subprocess.Popen(words, stdin=subprocess.PIPE, stdout=subprocess.PIPE, text=True)

    def ask(self, *lines):
        """Sends the lines of a request; the first line of its answer."""
        self.process.stdin.write("".join(line + "\n" for line in lines))
        self.process.stdin.flush()
        answer = self.process.stdout.readline().rstrip("\n")
        print(lines[0], "->", answer)
        return answer

    def command(self, index, argument, response="R1", data=""):
        """The word of the response; None where none came in time, or a damaged one: the card may have taken the command or not. The
        request announces the data that follow, if any do."""
        answer = self.ask(f"CMD{index} {argument:08x} {response}{data}")
        if answer == "-":
            return 0
        return None if answer in ("timeout", "damaged") else int(answer.split()[1], 16)

    def receive(self, count):
        if self.ask(f"IN {count} lines 1") != "ok":
            return None
        return b"".join(bytes.fromhex(self.process.stdout.readline()) for _ in range(count))

    def give(self, blocks):
        return self.ask(f"OUT {len(blocks)} lines 1", *(block.hex() for block in blocks)) == "ok"

    def end(self, how):
        self.process.stdin.write(how + "\n")
        self.process.stdin.close()
        return self.process.wait(10)


def bring_up(card):
    """The relative card address, in its place in an argument, and whether addresses count blocks."""
    for _ in range(100):  # begins anew where an answer is lost: the card may have taken the command or not
        card.command(0, 0, "-")
        card.command(8, 0x1AA, "R7")
        for _ in range(100):
            status = card.command(55, 0)
            ocr = card.command(41, 0x40FF8000, "R3") if status is not None and status >> 5 & 1 else None
            if ocr is None or ocr >> 31:
                break
        if ocr is None or not ocr >> 31 or card.command(2, 0, "R2") is None:
            continue
        rca = card.command(3, 0, "R6")
        if rca is not None and card.command(7, rca & 0xFFFF0000) is not None and card.command(16, 512) is not None:
            return rca & 0xFFFF0000, bool(ocr >> 30 & 1)
    sys.exit("host.py: the card does not come up")


def until_transfer(card, rca):
    """Asks for the status until the card is in transfer state, and ends a transfer whose command or answer was lost."""
    for _ in range(1000):
        status = card.command(13, rca)
        state = None if status is None else status >> 9 & 15
        if state == 4:
            return
        if state in (5, 6):
            card.command(12, 0)


def main():
    if len(sys.argv) < 2:
        sys.exit("usage: host.py PROGRAM WORD..")
    card = Card(sys.argv[1:])
    rca, by_blocks = bring_up(card)
    address = 3 if by_blocks else 3 * 512
    block = bytes(range(256)) * 2
    read = None
    for _ in range(5):
        if card.command(24, address, data=" out 1 lines 1") is not None and card.give([block]):
            card.ask("WAIT")
        until_transfer(card, rca)
        if card.command(17, address, data=" in 1 lines 1") is not None:
            read = card.receive(1)
        until_transfer(card, rca)
        if read == block:
            break
    return card.end("done") or (0 if read == block else 1)


sys.exit(main())
