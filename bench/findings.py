#!/usr/bin/env python3
"""For how many warnings of writes and erases `sdv verify` shows a run that loses data.

It writes scripts of both kinds of cards: each writes and erases some blocks, with checks left out, tries again, steps over what
failed, and goes on to `done`. COUNT (500) of those that are accepted and have such a warning are looked at. The same words make
the same scripts. Scripts with a warning without a run stay in /tmp/sdv-findings.
"""
import collections
import json
import os
import random
import subprocess
import sys
import time

TOP = os.path.dirname(os.path.dirname(os.path.abspath(__file__)))
SDV = os.environ.get("SDV", os.path.join(TOP, "crates/sdv/out/sdv"))
KEPT = "/tmp/sdv-findings"
WAIT = "loop 9 { wait { ok { break } else { } } } else { fault busy }"
BACK = "loop 9 { send 13 { state=rcv { send 12 { else { } } } ready & state=tran { break } else { } } } else { fault stuck }"


class Script:
    """A script that is being written."""

    def __init__(self, chance, kind):
        self.chance, self.kind, self.task_number = chance, kind, 0
        self.is_marked = chance.random() < 0.3

    def guard(self):
        """A guard of an answer: most often one that shows every error."""
        return "clean" if self.chance.random() < 0.8 else "answer"

    def miss(self):
        """What is done where something fails."""
        return self.chance.choice(["fault missed", "", ""])

    def place(self):
        """The block of a command."""
        return str(4 * self.task_number) if self.chance.random() < 0.7 else f"b + {4 * self.task_number}"

    def end(self, good):
        """A look at the status."""
        way = self.chance.random()
        if way < 0.5:
            return f"send 13 {{ clean & state=tran {{ {good} }} else {{ {self.miss()} }} }}"
        if way < 0.75:
            return f"send 13 {{ state=tran {{ {good} }} else {{ {self.miss()} }} }}"
        return good

    def write(self, good):
        """A write, and what comes where it went well."""
        if self.chance.random() < 0.3:
            stop = f"send 12 {{ {self.guard()} {{ {WAIT} {self.end(good)} }} else {{ {self.miss()} }} }}"
            return (f"send 25 at by hc {self.place()} count 2 {{ {self.guard()} {{ give {{ ok {{ {stop} }} "
                    f"else {{ {self.miss()} }} }} }} else {{ {self.miss()} }} }}")
        well = f"{WAIT} {self.end(good)}"
        return (f"send 24 at by hc {self.place()} {{ {self.guard()} {{ give {{ ok {{ {well} }} "
                f"else {{ {self.miss()} }} }} }} else {{ {self.miss()} }} }}")

    def erase(self, good):
        """An erase of the same kind."""
        first, last, erase = ("32", "33", "38") if self.kind == "sd" else ("35", "36", "38 0")
        well = f"{WAIT} {self.end(good)}"
        third = f"send {erase} {{ {self.guard()} {{ {well} }} else {{ {self.miss()} }} }}"
        second = f"send {last} at by hc {4 * self.task_number + 2} {{ clean {{ {third} }} else {{ {self.miss()} }} }}"
        return f"send {first} at by hc {4 * self.task_number} {{ clean {{ {second} }} else {{ {self.miss()} }} }}"

    def task(self):
        """A write or an erase, once or up to three times."""
        form = self.write if self.chance.random() < 0.75 else self.erase
        mark = "set sure " if self.is_marked else ""
        if self.chance.random() < 0.4:
            turns = self.chance.choice([2, 3])
            return f"loop {turns} {{ {form(mark + 'break')} {BACK} }} else {{ {self.miss()} }}"
        return f"{form(mark)} {BACK}"

    def text(self):
        """The script."""
        with open(os.path.join(TOP, f"examples/{self.kind}_bring_up.sdv"), encoding="ascii") as file:
            lines = [line for line in file.read().split("\n") if not line.startswith(("done", "#"))]
        names = {"flags hc": "flags hc sure" if self.is_marked else "flags hc", "nums cap": "nums cap b"}
        body = [names.get(line, line) for line in lines]
        body += ["if cap >= 32 { let b = 0 } else { fault small }"]
        for number in range(self.chance.choice([1, 1, 2, 3])):
            self.task_number = number + 1
            if number and self.chance.random() < 0.4:
                body.append("let b = b + 1")
            if self.is_marked and number:
                body.append("if sure { } else { fault unsure }" if self.chance.random() < 0.5 else "clear sure")
            body.append(self.task())
        body.append("if sure { done } else { fault unsure }" if self.is_marked and self.chance.random() < 0.7 else "done")
        return "\n".join(body) + "\n"


def findings(path):
    """The warnings of writes and erases of an accepted script, and how long it took to find them."""
    start = time.monotonic()
    said = subprocess.run([SDV, "verify", "--json", path], capture_output=True, text=True, timeout=600, check=False).stdout
    objects = [json.loads(line) for line in said.splitlines()]
    if not objects or objects[-1].get("verdict") != "accepted":
        return [], 0
    return [it for it in objects[:-1] if it["kind"] in ("write", "erase")], time.monotonic() - start


def main():
    count, seed = (int(word) for word in (sys.argv[1:] + ["500", "1"][len(sys.argv) - 1:]))
    os.makedirs(KEPT, exist_ok=True)
    scripts, with_run, without, longest = 0, 0, collections.Counter(), 0.0
    for number in range(100 * count):
        if scripts == count:
            break
        chance = random.Random(seed * 1_000_000 + number)
        path = os.path.join(KEPT, f"{number}.sdv")
        with open(path, "w", encoding="ascii") as file:
            file.write(Script(chance, ("sd", "emmc")[number % 2]).text())
        found, seconds = findings(path)
        scripts += bool(found)
        longest = max(longest, seconds)
        missing = [it for it in found if "run" not in it]
        with_run += len(found) - len(missing)
        for it in missing:
            words = "".join("N" if letter.isdigit() else letter for letter in it["text"]).replace("NN", "N")
            without[words] += 1
        if not missing:
            os.remove(path)
    total = with_run + sum(without.values())
    print(f"{scripts} scripts with {total} warnings of writes and erases; {with_run} have a run, {total - with_run} have none")
    for words, times in without.most_common():
        print(f"{times:6}  {words}")
    print(f"the longest took {longest:.2f} s")


if __name__ == "__main__":
    main()
