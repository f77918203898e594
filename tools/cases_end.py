#!/usr/bin/env python3
"""What the program cases_end is to print: one end, simulated by docs/RULES.md alone. Prints the file crates/cases_end/stdout."""

M = 1 << 24
MOST_OUTSTANDING = 8_388_607
DIRTY_NUMBER = 4_000_000_000
WORD = (1 << 32) - 1

# What each area is lent with. No case writes these values.
DIRTY = {"length": 4_000_000_001, "stamp": 4_000_000_002, "waiting": 4_000_000_003, "kept byte": 0xE1,
         "mark": 0xE2, "received length": 4_000_000_004, "received byte": 0xE3, "output": 0xE4}
BYTES = {"kept byte", "mark", "received byte", "output"}

# In the order of a line.
NUMBERS = ["C", "B", "k", "MaxSTAT", "MaxPD", "running", "S", "A", "MS", "PS", "PA", "PD", "kept", "first",
           "T", "R", "H", "MR", "head"]


def ahead(p, q):
    return (p - q) % M


def word(first, number):
    """A word whose first byte is given, with a number in the other three."""
    return bytes([first]) + number.to_bytes(3, "big")


def sd(number, message):
    pad = -len(message) % 4
    return bytes(message) + bytes(pad) + word(pad << 6 | 0b1000, number)


def poll_pdu(ps, s):
    return word(0, ps) + word(0b1010, s)


class Refused(Exception):
    def __init__(self, answer):
        self.answer = answer


class End:
    """A state (the numbers, under their names in the lines) and the areas lent to it."""

    def __init__(self, parameters, lengths):
        self.n = dict.fromkeys(NUMBERS, DIRTY_NUMBER)
        self.n.update(parameters)
        self.areas = {}
        for area, dirty in DIRTY.items():
            cells = [dirty] * lengths[area] if area not in BYTES else bytearray([dirty]) * lengths[area]
            self.areas[area] = cells

    # Rules of 17.

    def parameters_in_range(self):
        n = self.n
        return (1 <= n["C"] <= 1024 and 1 <= n["B"] <= 1024 and n["k"] <= 4096 and 1 <= n["MaxPD"] <= 1024
                and 3 <= n["MaxSTAT"] <= 67 and n["MaxSTAT"] % 2 == 1)

    def areas_long_enough(self):
        n = self.n
        need = {"length": n["B"], "stamp": n["B"], "waiting": n["B"], "kept byte": n["B"] * n["k"],
                "mark": n["C"], "received length": n["C"], "received byte": n["C"] * n["k"]}
        return all(len(self.areas[area]) >= count for area, count in need.items())

    def sent(self):
        return ahead(self.n["S"], self.n["A"])

    def outstanding(self):
        return (self.n["PS"] - self.n["PA"] + 1) % M

    def in_order(self):
        return ahead(self.n["R"], self.n["T"])

    def kept_slot(self, i):
        return (self.n["first"] + i) % self.n["B"]

    def received_slot(self, i):
        return (self.n["head"] + i) % self.n["C"]

    def transmitter_keeps(self):
        n = self.n
        if any(n[name] >= M for name in ("S", "A", "MS", "PS", "PA")):
            return False
        if n["kept"] > n["B"] or self.sent() > n["kept"] or n["first"] >= n["B"]:
            return False
        if self.outstanding() > MOST_OUTSTANDING or n["PD"] > n["MaxPD"]:
            return False
        return all(self.entry_keeps(i) for i in range(n["B"]))

    def entry_keeps(self, i):
        slot = self.kept_slot(i)
        if self.areas["waiting"][slot] != 0 and i >= self.sent():
            return False
        if i < self.sent() and self.areas["stamp"][slot] >= M:
            return False
        return i >= self.n["kept"] or self.areas["length"][slot] <= self.n["k"]

    def receiver_keeps(self):
        n = self.n
        if any(n[name] >= M for name in ("T", "R", "H", "MR")) or n["head"] >= n["C"]:
            return False
        r, h, mr = (ahead(n[name], n["T"]) for name in ("R", "H", "MR"))
        if not r <= h <= mr or mr != n["C"]:
            return False
        for i in range(n["C"]):
            slot = self.received_slot(i)
            marked = self.areas["mark"][slot] != 0
            if i < r and not marked or marked and not (i < r or r < i < h):
                return False
            if marked and self.areas["received length"][slot] > n["k"]:
                return False
        return True

    def judge(self):
        if not (self.parameters_in_range() and self.areas_long_enough() and self.n["running"] <= 1
                and self.transmitter_keeps() and self.receiver_keeps()):
            raise Refused(17)

    def judge_running(self):
        self.judge()
        if self.n["running"] == 0:
            raise Refused(15)

    # Calls. Each gives its count, or None, or raises Refused before it changes anything.

    def open(self, n, g):
        if not (self.parameters_in_range() and self.areas_long_enough() and n < M and g <= 1024):
            raise Refused(17)
        self.n.update(running=1, S=n, A=n, R=n, H=n, PS=n, PA=(n + 1) % M, PD=0, T=n, kept=0, first=0, head=0,
                      MR=(n + self.n["C"]) % M, MS=(n + g) % M)
        for slot in range(self.n["B"]):
            self.areas["waiting"][slot] = 0
        for slot in range(self.n["C"]):
            self.areas["mark"][slot] = 0

    def submit(self, message):
        self.judge_running()
        if len(message) > self.n["k"]:
            raise Refused(9)
        if self.n["kept"] == self.n["B"]:
            raise Refused(10)
        slot = self.kept_slot(self.n["kept"])
        at = slot * self.n["k"]
        self.areas["length"][slot] = len(message)
        self.areas["kept byte"][at:at + len(message)] = message
        self.n["kept"] += 1

    def write(self, room, written):
        if room < len(written):
            raise Refused(8)
        self.areas["output"][:len(written)] = written
        return len(written)

    def next_to_send(self):
        for i in range(self.sent()):
            if self.areas["waiting"][self.kept_slot(i)] != 0:
                return i
        if self.sent() == self.n["kept"]:
            raise Refused(11)
        if not self.sent() < ahead(self.n["MS"], self.n["A"]):
            raise Refused(12)
        return self.sent()

    def send(self, room):
        self.judge_running()
        i = self.next_to_send()
        if self.n["PD"] == self.n["MaxPD"]:
            raise Refused(13)
        slot = self.kept_slot(i)
        at = slot * self.n["k"]
        message = self.areas["kept byte"][at:at + self.areas["length"][slot]]
        count = self.write(room, sd((self.n["A"] + i) % M, message))
        if i == self.sent():
            self.n["S"] = (self.n["S"] + 1) % M
        self.areas["stamp"][slot] = self.n["PS"]
        self.areas["waiting"][slot] = 0
        self.n["PD"] += 1
        return count

    def poll(self, room):
        self.judge_running()
        if self.outstanding() == MOST_OUTSTANDING:
            raise Refused(14)
        ps = (self.n["PS"] + 1) % M
        count = self.write(room, poll_pdu(ps, self.n["S"]))
        self.n.update(PS=ps, PD=0)
        return count

    def take(self, room):
        self.judge()
        if self.in_order() == 0:
            raise Refused(16)
        slot = self.n["head"]
        at = slot * self.n["k"]
        count = self.write(room, self.areas["received byte"][at:at + self.areas["received length"][slot]])
        self.areas["mark"][slot] = 0
        t = (self.n["T"] + 1) % M
        self.n.update(T=t, MR=(t + self.n["C"]) % M, head=(slot + 1) % self.n["C"])
        return count


def answer_of(call, *arguments):
    try:
        return 0, call(*arguments)
    except Refused as refused:
        return refused.answer, None


def cells_text(area, cells):
    return "".join(f" {cell:02X}" if area in BYTES else f" {cell}" for cell in cells)


def runs_text(area, old, new):
    text = ""
    start = None
    for i in range(len(new) + 1):
        changed = i < len(new) and old[i] != new[i]
        if changed and start is None:
            start = i
        if not changed and start is not None:
            text += f"; {area} " + run_text(area, new, start, i)
            start = None
    return text


def run_text(area, cells, start, end):
    where = f"{start}" if end == start + 1 else f"{start}..{end}"
    if end - start <= 16:
        return where + " =" + cells_text(area, cells[start:end])
    return where + " =" + cells_text(area, cells[start:start + 4]) + " .." + cells_text(area, cells[end - 4:end])


class Bench:
    """Tells an end's calls line by line."""

    def __init__(self, parameters, longer=0, room_for=None, **lengths):
        c, b, k = ((room_for or parameters)[name] for name in ("C", "B", "k"))
        right = {"length": b, "kept byte": b * k, "mark": c, "received length": c, "received byte": c * k}
        right = {area: count + longer for area, count in right.items()}
        right.update(lengths)
        right.update(stamp=right["length"], waiting=right["length"], output=(room_for or parameters)["k"] + 16)
        self.end = End(parameters, right)
        self.settle()

    def settle(self):
        output = self.end.areas["output"]
        output[:] = bytes([DIRTY["output"]]) * len(output)
        self.numbers = dict(self.end.n)
        self.areas = {area: cells[:] for area, cells in self.end.areas.items()}

    def changes(self):
        text = "".join(f"; {name} {self.end.n[name]}" for name in NUMBERS if self.end.n[name] != self.numbers[name])
        for area, new in self.end.areas.items():
            if new != self.areas[area]:
                text += runs_text(area, self.areas[area], new)
        self.settle()
        return text

    def tell(self, name, answer, count):
        print(f"{name}: {answer}" + (f", count {count}" if count is not None else "") + self.changes())

    def open(self, name, n, g):
        self.tell(name, *answer_of(self.end.open, n, g))

    def submit(self, name, message):
        self.tell(name, *answer_of(self.end.submit, message))

    def send(self, name, room):
        self.tell(name, *answer_of(self.end.send, self.room(room)))

    def poll(self, name, room):
        self.tell(name, *answer_of(self.end.poll, self.room(room)))

    def take(self, name, room):
        self.tell(name, *answer_of(self.end.take, self.room(room)))

    def room(self, room):
        return min(room, len(self.end.areas["output"]))

    def probed(self):
        """Refused in any case: a message that is too long, and no room."""
        end = self.end
        calls = [(end.submit, bytes(4097)), (end.send, 0), (end.poll, 0), (end.take, 0)]
        return ": " + " ".join(str(answer_of(call, given)[0]) for call, given in calls) + self.changes()

    def probe(self, name):
        print(name + self.probed())

    def probe_and_open(self, name):
        print(f"{name}{self.probed()} {answer_of(self.end.open, 0, 0)[0]}" + self.changes())

    def fill(self, name):
        taken = 0
        while answer_of(self.end.submit, b"")[0] == 0:
            taken += 1
        print(f"{name}: {taken} taken" + self.changes())

    def open_with(self, parameter, values):
        text = "open"
        for value in values:
            self.set(**{parameter: value})
            text += f", {parameter} {value}: {answer_of(self.end.open, 0, 0)[0]}" + self.changes()
        print(text)

    def set(self, cells=(), **numbers):
        self.end.n.update(numbers)
        for (area, slot), value in dict(cells).items():
            self.end.areas[area][slot] = value
        self.settle()

    def receive(self, slot, message):
        at = slot * self.end.n["k"]
        self.end.areas["received byte"][at:at + len(message)] = message
        self.set({("mark", slot): 1, ("received length", slot): len(message)})


def parameters(c, b, k, maxstat, maxpd):
    return {"C": c, "B": b, "k": k, "MaxSTAT": maxstat, "MaxPD": maxpd}


def smallest():
    print("C, B and MaxPD 1, k 0, MaxSTAT 3")
    bench = Bench(parameters(1, 1, 0, 3, 1))
    bench.open("open with n 0, G 0", 0, 0)
    bench.submit("submit a byte", b"A")
    bench.submit("submit the empty message", b"")
    bench.submit("submit it again", b"")
    bench.submit("submit a byte when full", b"A")
    bench.send("send without credit", 4)
    bench.set(MS=1)
    bench.send("send into 3 bytes", 3)
    bench.send("send into 4 bytes", 4)
    bench.send("send with all sent", 4)
    bench.set(A=1, kept=0, MS=2)
    bench.submit("submit after a release", b"")
    bench.send("send with MaxPD sent since the poll", 4)
    bench.poll("poll into 7 bytes", 7)
    bench.poll("poll into 8 bytes", 8)
    bench.send("send after the poll", 4)
    bench.take("take with nothing received", 0)
    bench.receive(0, b"")
    bench.set(R=1, H=1)
    bench.take("take the empty message into no bytes", 0)
    bench.take("take again", 0)


def largest():
    print("C, B and MaxPD 1,024, k 4,096, MaxSTAT 67")
    bench = Bench(parameters(1024, 1024, 4096, 67, 1024))
    bench.open("open with n 16,777,215, G 1,024", 16_777_215, 1_024)
    bench.set(first=1023)
    bench.submit("submit 4,097 bytes", b"\x41" * 4097)
    bench.submit("submit 4,096 bytes", b"\x42" * 4096)
    bench.submit("submit CD", b"CD")
    bench.fill("submit the empty message until full")
    bench.send("send into 4,099 bytes", 4099)
    bench.send("send into 4,100 bytes", 4100)
    bench.send("send CD", 8)
    bench.poll("poll", 8)
    bench.set(head=1023, R=1, H=1)
    bench.receive(1023, b"\x45" * 4096)
    bench.receive(0, b"FG")
    bench.take("take into 4,095 bytes", 4095)
    bench.take("take into 4,096 bytes", 4096)
    bench.take("take FG", 4096)
    bench.take("take again", 4096)


def out_of_range():
    print("parameters out of range")
    bench = Bench(parameters(4, 3, 2, 3, 4), room_for=parameters(1025, 1025, 4, 3, 4))
    bench.open_with("C", [0, 1025, WORD])
    bench.set(C=4)
    bench.open_with("B", [0, 1025, WORD])
    bench.set(B=1, C=1)
    bench.open_with("k", [4097, WORD])
    bench.set(k=2)
    bench.open_with("MaxSTAT", [0, 1, 2, 4, 66, 68, 69])
    bench.set(MaxSTAT=3)
    bench.open_with("MaxPD", [0, 1025, WORD])
    bench.set(MaxPD=4)
    bench.open("open with n 16,777,216", M, 0)
    bench.open("open with n 4,294,967,295", WORD, 0)
    bench.open("open with G 1,025", 0, 1025)
    bench.open("open with all in range", 0, 0)


def too_short():
    print("areas one short, each alone: submit, send, poll, take, open")
    for name, lengths in [("entries", {"length": 2}), ("kept bytes", {"kept byte": 5}), ("marks", {"mark": 3}),
                          ("received lengths", {"received length": 3}), ("received bytes", {"received byte": 7}),
                          ("none", {})]:
        bench = Bench(parameters(4, 3, 2, 3, 4), **lengths)
        bench.set(running=1, S=0, A=0, MS=0, PS=0, PA=1, PD=0, kept=0, first=0, T=0, R=0, H=0, MR=4, head=0)
        waiting = {("waiting", slot): 0 for slot in range(lengths.get("length", 3))}
        marks = {("mark", slot): 0 for slot in range(lengths.get("mark", 4))}
        bench.set({**waiting, **marks})
        bench.probe_and_open(name)


def walk():
    print("C and B 16, k 256, MaxPD 3, each area 3 longer than needed")
    bench = Bench(parameters(16, 16, 256, 67, 3), longer=3)
    bench.open("open with n 5, G 2", 5, 2)
    walk_sends(bench)
    walk_resends(bench)
    walk_stopped(bench)
    walk_polls(bench)
    bench.fill("submit the empty message until full")
    bench.submit("submit A when full", b"A")
    bench.submit("submit 257 bytes when full", b"A" * 257)


def walk_sends(bench):
    bench.send("send with nothing kept into no bytes", 0)
    bench.submit("submit the empty message", b"")
    bench.submit("submit A", b"A")
    bench.submit("submit AB", b"AB")
    bench.submit("submit ABC", b"ABC")
    bench.submit("submit ABCD", b"ABCD")
    bench.submit("submit 257 bytes", b"A" * 257)
    bench.send("send the empty message", 64)
    bench.send("send A", 64)
    bench.send("send AB without credit into no bytes", 0)
    bench.set(MS=21)
    bench.send("send AB into 7 bytes", 7)
    bench.send("send AB", 64)
    bench.send("send ABC after MaxPD into no bytes", 0)
    bench.set(MS=8)
    bench.send("send ABC after MaxPD without credit", 64)
    bench.set(MS=21)
    bench.poll("poll", 64)
    bench.send("send ABC", 64)
    bench.send("send ABCD", 64)
    bench.set(PD=3)
    bench.send("send with all sent after MaxPD", 64)


def walk_resends(bench):
    bench.poll("poll", 64)
    bench.set({("waiting", 3): 1, ("waiting", 1): WORD}, MS=5)
    bench.send("resend into 7 bytes", 7)
    bench.send("resend the lowest, without credit", 64)
    bench.set(PD=3)
    bench.send("resend after MaxPD into no bytes", 0)
    bench.set(PD=0)
    bench.send("resend the other", 64)
    bench.send("send with all sent, none waiting, no credit", 64)
    bench.submit("submit EF", b"EF")
    bench.send("send EF without credit", 64)
    bench.set({("waiting", 2): 9}, MS=11)
    bench.send("resend AB before EF", 64)
    bench.send("send EF with the last credit", 64)


def walk_stopped(bench):
    bench.set(running=0)
    bench.submit("stopped: submit 257 bytes", b"A" * 257)
    bench.send("stopped: send with all sent", 64)
    bench.poll("stopped: poll into no bytes", 0)
    bench.take("stopped: take with nothing in order", 64)
    bench.set(S=11 + M)
    bench.probe("stopped, and VT(S) 2^24 more")
    bench.open("stopped: open with n 9, G 0", 9, 0)


def walk_polls(bench):
    # VT(PS) is 9: so many are outstanding, modulo 2^24, where VT(PA) is 10 less
    bench.set(PA=(10 - 8_388_606) % M, PD=2)
    bench.poll("poll with 8,388,606 outstanding into 7 bytes", 7)
    bench.poll("poll with 8,388,606 outstanding", 64)
    bench.poll("poll with 8,388,607 outstanding into no bytes", 0)
    bench.set(running=0)
    bench.poll("stopped: poll with 8,388,607 outstanding", 64)
    bench.set(PA=(11 - 8_388_608) % M)
    bench.poll("stopped: poll with 8,388,608 outstanding", 64)
    bench.set(PA=11, running=1)
    bench.poll("poll with none outstanding", 64)


def ring():
    print("C 5, B 3, k 4, each area 2 longer than needed")
    bench = Bench(parameters(5, 3, 4, 5, 1024), longer=2)
    bench.open("open with n 16,777,215, G 8", 16_777_215, 8)
    ring_sends(bench)
    bench.open("open with n 16,777,213, G 0", 16_777_213, 0)
    ring_takes(bench)


def ring_sends(bench):
    bench.submit("submit AB", b"AB")
    bench.submit("submit CDE", b"CDE")
    bench.submit("submit F", b"F")
    bench.submit("submit G when full", b"G")
    bench.send("send AB", 20)
    bench.send("send CDE", 20)
    bench.send("send F", 20)
    bench.set(A=1, kept=1, first=2)
    bench.submit("submit GHIJ", b"GHIJ")
    bench.submit("submit K", b"K")
    bench.poll("poll", 20)
    bench.send("send GHIJ", 20)
    bench.send("send K", 20)
    bench.set({("waiting", 1): 1, ("waiting", 2): 1})
    bench.poll("poll", 20)
    bench.send("resend F, of slot 2, before K, of slot 1", 20)
    bench.send("resend K", 20)
    bench.set(A=4, kept=0, first=2)
    bench.send("send with all released", 20)
    bench.submit("submit VWXY", b"VWXY")
    bench.submit("submit the empty message", b"")
    bench.send("send VWXY", 20)
    bench.send("send the empty message", 20)


def ring_takes(bench):
    bench.set(head=3, R=0, H=2)
    bench.receive(3, b"MN")
    bench.receive(4, b"")
    bench.receive(0, b"OPQR")
    bench.receive(2, b"S")
    bench.take("take MN into no bytes", 0)
    bench.take("take MN into 1 byte", 1)
    bench.take("take MN into 2 bytes", 2)
    bench.set(running=0)
    bench.take("stopped: take the empty message into no bytes", 0)
    bench.take("stopped: take OPQR into 3 bytes", 3)
    bench.take("stopped: take OPQR", 20)
    bench.take("stopped: take at the gap into no bytes", 0)
    bench.receive(1, b"TU")
    bench.set(R=2)
    bench.take("take TU after the gap is filled", 20)
    bench.take("take S", 20)
    bench.take("take with all taken", 20)
    bench.set(head=5)
    bench.take("take with all taken, the slot of T not in the ring", 20)


# An end that keeps each rule. Kept from slot 3 on: 16,777,214 and 16,777,215, which are sent, and 0. Received from slot 2
# on: 16,777,213 and 16,777,214, and 0.
BASE = {"MaxSTAT": 3, "MaxPD": 4, "running": 1, "S": 0, "A": M - 2, "MS": 3, "PS": 9, "PA": 8, "PD": 2, "kept": 3, "first": 3,
        "T": M - 3, "R": M - 1, "H": 1, "MR": 2, "head": 2}
BASE_CELLS = {**{("length", slot): 4 for slot in range(5)}, **{("stamp", slot): 9 for slot in range(5)},
              **{("waiting", slot): 0 for slot in range(5)}, **{("received length", slot): 4 for slot in range(5)},
              **{("mark", slot): int(slot in (2, 3, 0)) for slot in range(5)}}


class Rules:
    """Changes an end that keeps each rule, and probes it."""

    def __init__(self):
        self.bench = Bench(parameters(5, 5, 4, 3, 4), longer=2)

    def probed(self, cells=(), **numbers):
        self.bench.set(BASE_CELLS, **BASE)
        self.bench.set(cells, **numbers)
        return self.bench.probed()

    def check(self, name, cells=(), **numbers):
        print(name + self.probed(cells, **numbers))

    def line(self, title, cases):
        """A case is its name, the numbers that it changes, and the cells."""
        print(title + "".join(f", {name}" + self.probed(cells, **numbers) for name, numbers, cells in cases))


def rules():
    bench = Rules()
    print("no rule of 17 broken: submit, send, poll, take")
    transmitter_keeps(bench.check)
    receiver_keeps(bench.check)
    print("one rule of 17 broken in each: submit, send, poll, take")
    bench.line("each 2^24 more", numbers_broken())
    bench.line("parameters and running", PARAMETERS_BROKEN)
    bench.line("counts", COUNTS_BROKEN)
    bench.line("entries", ENTRIES_BROKEN)
    bench.line("the receiver's numbers", ORDER_BROKEN)
    bench.line("marks and lengths", MARKS_BROKEN)


def transmitter_keeps(check):
    check("as it is")
    check("a sent message waits", {("waiting", 4): 7})
    check("stamp 2^24 of an unsent message", {("stamp", 0): M})
    check("stamp 2^24, length 5 where none is kept", {("stamp", 1): M, ("length", 1): 5})
    check("VT(MS) 2^24 - 1 ahead of VT(A)", MS=M - 3)
    check("VT(MS) is VT(A)", MS=M - 2)
    check("B kept", kept=5)
    check("all sent", S=1)
    check("none outstanding", PA=10)
    check("8,388,607 polls outstanding", PA=(10 - 8_388_607) % M)
    check("VT(PD) is MaxPD", PD=4)
    check("stopped", running=0)


def receiver_keeps(check):
    check("a mark of 255", {("mark", 2): 255})
    check("length 5 where none is received", {("received length", 1): 5, ("received length", 4): 5})
    check("none received above VT(R)", {("mark", 0): 0})
    check("VR(H) is VR(MR), the last one received", {("mark", 1): 1}, H=2)
    check("VR(R) and VR(H) are T", {("mark", slot): 0 for slot in range(5)}, R=M - 3, H=M - 3)


def numbers_broken():
    names = {"S": "VT(S)", "A": "VT(A)", "MS": "VT(MS)", "PS": "VT(PS)", "PA": "VT(PA)", "T": "T", "R": "VR(R)", "H": "VR(H)",
             "MR": "VR(MR)"}
    numbers = [(shown, {name: BASE[name] + M}, {}) for name, shown in names.items()]
    return numbers + [("stamp of a sent message", {}, {("stamp", 4): 9 + M})]


PARAMETERS_BROKEN = [
    ("MaxSTAT 4", {"MaxSTAT": 4}, {}),
    ("MaxPD 1,025", {"MaxPD": 1025}, {}),
    ("MaxPD 0", {"MaxPD": 0, "PD": 0}, {}),
    ("running is 2", {"running": 2}, {}),
]
COUNTS_BROKEN = [
    ("more kept than B", {"kept": 6}, {}),
    ("more sent than kept", {"S": 2}, {}),
    ("VT(S) behind VT(A)", {"S": M - 3}, {}),
    ("slot of VT(A) not in the ring", {"first": 5}, {}),
    ("8,388,608 polls outstanding", {"PA": (10 - 8_388_608) % M}, {}),
    ("2^24 - 1 polls outstanding", {"PA": 11}, {}),
    ("VT(PD) above MaxPD", {"PD": 5}, {}),
]
ENTRIES_BROKEN = [
    ("an unsent message waits", {}, {("waiting", 0): 1}),
    ("an entry waits that keeps none", {}, {("waiting", 2): 1}),
    ("length 5 of a sent message", {}, {("length", 4): 5}),
    ("length 5 of an unsent message", {}, {("length", 0): 5}),
]
ORDER_BROKEN = [
    ("VR(R) behind T", {"R": M - 4}, {}),
    ("VR(H) behind VR(R)", {"H": M - 2}, {("mark", 0): 0}),
    ("VR(H) ahead of VR(MR)", {"H": 3}, {}),
    ("VR(MR) ahead of T by C - 1", {"MR": 1}, {}),
    ("VR(MR) ahead of T by C + 1", {"MR": 3}, {}),
    ("slot of T not in the ring", {"head": 5}, {}),
]
MARKS_BROKEN = [
    ("T not received", {}, {("mark", 2): 0}),
    ("VR(R) - 1 not received", {}, {("mark", 3): 0}),
    ("VR(R) received", {}, {("mark", 4): 1}),
    ("VR(H) received", {}, {("mark", 1): 1}),
    ("a number above VR(H) received", {"H": 0}, {("mark", 0): 0, ("mark", 1): 1}),
    ("length 5 of a message in order", {}, {("received length", 2): 5}),
    ("length 5 of a message above a gap", {}, {("received length", 0): 5}),
]


def main():
    smallest()
    largest()
    out_of_range()
    too_short()
    walk()
    ring()
    rules()


if __name__ == "__main__":
    main()
