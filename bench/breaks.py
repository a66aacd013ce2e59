#!/usr/bin/env python3
"""Of how many scripts that `sdv certify` refuses `sdv verify` finds a run that breaks them.

It takes scripts that tests/firmware/scripts.py writes and that have a certificate, without their numbers (with --numbers: as
they are), and changes one to three places of each. COUNT (100) of those that `certify` then refuses are handed to `sdv verify`,
with two seconds for each. The same words make the same scripts. Scripts of which nothing was found stay in /tmp/sdv-breaks.

With --capacity it takes each accepted script of examples/ in place of these, and raises one of its block addresses past the least
capacity that passes the script's tests. It tells how long `verify` takes of each, and what it finds.
"""
import glob
import os
import random
import re
import subprocess
import sys
import tempfile
import time

TOP = os.path.dirname(os.path.dirname(os.path.abspath(__file__)))
SDV = os.environ.get("SDV", os.path.join(TOP, "crates/sdv/out/sdv"))
KEPT = "/tmp/sdv-breaks"
LIMIT = 2.0
COMMANDS = {"sd": ["0", "2", "3", "7", "7 none", "9", "10", "12", "13", "16", "17 at by hc 0", "24 at by hc 0", "38", "51", "55"],
            "emmc": ["0", "1", "2", "3", "7", "7 none", "8", "9", "10", "12", "13", "16", "17 at by hc 0", "24 at by hc 0", "38 0"]}
GUARDS = {"clean": "answer", "answer": "clean", "ready": "clean", "app": "clean", "ok": "ok"}


def without_numbers(text):
    """The script without its numbers: no `let`, no test, each address that of block 0, and each count 1."""
    lines = [line for line in text.split("\n") if not re.search(r"\b(let|if)\b", line) and not line.startswith("nums")]
    text = "\n".join(lines).replace("set g", "").replace("clear g", "")
    text = re.sub(r"at by hc \w+", "at by hc 0", text)
    return re.sub(r"count \d+", "count 1", text)


def blocks_of(words):
    """The first and last places of the statements `send`, `wait`, `recv`, `give` among words, with their blocks."""
    found = []
    for first, word in enumerate(words):
        if word in ("send", "wait", "recv", "give"):
            depth, last = 0, first
            while last < len(words):
                depth += {"{": 1, "}": -1}.get(words[last], 0)
                if words[last] == "}" and depth == 0:
                    break
                last += 1
            found.append((first, last))
    return found


def changed(chance, kind, text):
    """The script with a place changed."""
    words = text.split()
    way = chance.randrange(4)
    first, last = chance.choice(blocks_of(words))
    if way == 0:
        del words[first:last + 1]
    elif way == 1:
        words[first:first] = words[first:last + 1]
    elif way == 2 and words[first] == "send":
        end = words.index("{", first)
        words[first + 1:end] = chance.choice(COMMANDS[kind]).split()
    else:
        guards = [place for place, word in enumerate(words) if word in GUARDS or word.startswith("state=")]
        place = chance.choice(guards)
        if "&" in (words[place - 1], words[place + 1]):
            del words[place - 1 if words[place - 1] == "&" else place:place + 1 if words[place - 1] == "&" else place + 2]
        else:
            words[place] = GUARDS.get(words[place], "clean")
    return " ".join(words) + "\n"


def answer(*words):
    return subprocess.run([SDV, *words], capture_output=True, text=True, timeout=60)


def refused(folder, seed, numbers):
    """Scripts that `certify` refuses, with their names."""
    for turn in range(1000):
        made = os.path.join(folder, str(turn))
        os.mkdir(made)
        subprocess.run([sys.executable, os.path.join(TOP, "tests/firmware/scripts.py"), "100", str(seed * 1000 + turn), made], check=True)
        for number in range(100):
            chance = random.Random((seed * 1000 + turn) * 100 + number)
            path = os.path.join(made, f"{number}.sdv")
            with open(path, encoding="ascii") as file:
                text = file.read()
            kind = "emmc" if text.startswith("card emmc") else "sd"
            if not numbers:
                text = without_numbers(text)
            with open(path, "w", encoding="ascii") as file:
                file.write(text)
            if answer("certify", path).returncode != 0:
                continue
            for _ in range(chance.randint(1, 3)):
                text = changed(chance, kind, text)
            with open(path, "w", encoding="ascii") as file:
                file.write(text)
            if answer("certify", path).stderr.startswith("refused"):
                yield path, text


def least_capacity(text):
    """The fewest blocks of a card with which the script goes on. A CSD tells the capacity of an SD card in steps of four blocks."""
    tested = max([int(number) for number in re.findall(r"\bif \w+ >= (\d+)", text)], default=1)
    return tested if "card emmc" in text else -(-tested // 4) * 4


def raised(text):
    """The script with one address raised so that the least card has all its blocks but one, for each address that is a number."""
    for site in re.finditer(r"\bat (?:by \w+|block|byte) (\d+)(?: count (\d+))?", text):
        first = least_capacity(text) - int(site[2] or 1) + 1
        if first > int(site[1]):
            yield site[0], first, text[:site.start(1)] + str(first) + text[site.end(1):]


def capacities():
    """Tries `verify` of each accepted example with an address raised."""
    found, times = 0, []
    for path in sorted(glob.glob(os.path.join(TOP, "examples", "**", "*.sdv"), recursive=True)):
        if answer("certify", path).returncode != 0:
            continue
        with open(path, encoding="ascii") as file:
            text = file.read()
        for site, first, script in raised(text):
            os.makedirs(KEPT, exist_ok=True)
            kept = os.path.join(KEPT, "raised.sdv")
            with open(kept, "w", encoding="ascii") as file:
                file.write(script)
            start = time.monotonic()
            try:
                said = answer("verify", kept).stdout
                wrong = re.search(r"^    wrong +(.*)$", said, re.M)
                end = wrong[1] if wrong else said.split("\n")[0]
                found += bool(wrong)
            except subprocess.TimeoutExpired:
                end = "too long"
            times.append(time.monotonic() - start)
            print(f"{times[-1]:.2f} s  {os.path.relpath(path, TOP)}: `{site}` from block {first}: {end}", flush=True)
    print(f"{found} of {len(times)} found, longest {max(times):.2f} s")


def main():
    if "--capacity" in sys.argv:
        return capacities()
    words = [word for word in sys.argv[1:] if word != "--numbers"]
    count, seed = int(words[0]) if words else 100, int(words[1]) if len(words) > 1 else 1
    tally, times = {"refuted": 0, "path told": 0, "no path": 0, "nothing found": 0, "too long": 0}, []
    os.makedirs(KEPT, exist_ok=True)
    with tempfile.TemporaryDirectory() as folder:
        for path, text in refused(folder, seed, "--numbers" in sys.argv):
            start = time.monotonic()
            try:
                said = subprocess.run([SDV, "verify", path], capture_output=True, text=True, timeout=LIMIT).stdout
                end = ("refuted" if "\n    wrong " in said else "path told" if "\nno run beside " in said
                       else "no path" if "[unbroken]" in said else "nothing found")
            except subprocess.TimeoutExpired:
                end = "too long"
            times.append(time.monotonic() - start)
            tally[end] += 1
            if end != "refuted":
                with open(os.path.join(KEPT, f"{seed}-{len(times)}-{end.replace(' ', '_')}.sdv"), "w", encoding="ascii") as file:
                    file.write(text)
            if len(times) == count:
                break
    times.sort()
    print(", ".join(f"{end}: {number}" for end, number in tally.items()), f"of {len(times)}")
    print(f"seconds: median {times[len(times) // 2]:.3f}, 95 of 100 below {times[len(times) * 95 // 100]:.3f}, longest {times[-1]:.3f}")


main()
