#!/usr/bin/env python3
"""Workloads worth playing: a small simulator, and the programs whose journals it writes. README.md says what each of them shows.

    python3 examples/workloads.py [FOLDER]

writes NAME.journal, NAME.listing and NAME.tally of each workload to FOLDER, or to the folder of this file. Nothing is random: the same
files come out each time.

It is also a model of how a simulator comes to a first journal:

- A program is a generator function, and its accesses are `yield from`: `head = yield from core.load(HEAD)`.
- A core spells out each access as steps of the journal. Each step's answer says what comes next: a load that is answered `ask` has not
  happened; the manager serves it, where that answers `recall` the owner gives the line back first, the core receives and loads again.
- The answers are the library's: after each step it plays the journal so far, and its last answer is that step's. For some hundred steps
  that is quick enough.
- A schedule says which core has the next turn. A turn ends at a plain `yield`, mostly after one step, so that the requests of several cores
  are under way at once. (That is Python's word. The fabric's yield is the step `op=yield`.)
"""

import itertools
import os
import sys

HERE = os.path.dirname(os.path.abspath(__file__))
sys.path.insert(0, os.path.join(HERE, "..", "python"))
sys.dont_write_bytecode = True  # the clone stays as it is

import fabric  # from the folder python

# Where a line is that the manager has granted to a core: in its slot as an answer, in its cache, or on the way back.
GRANTED, OWNED, RETURNING = "granted", "owned", "returning"


class Machine:
    """The journal so far, and what a simulator has to know beside it: which lines are away from the manager, and which are recalled."""

    def __init__(self, first_line):
        sizes = dict(word.split("=") for word in first_line.split())
        self.journal = first_line + "\n"
        self.cores = [Core(self, number) for number in range(int(sizes["cores"]))]
        self.width = int(sizes["width"])
        self.cap = int(sizes.get("cap", sizes["lines"]))
        self.owner = {}  # of each line that is away: the core that it was granted to
        self.where = {}  # of each line that is away: GRANTED, OWNED or RETURNING
        self.recall = {}  # of each line that is recalled: the request for which, "load" or "store"
        self.held = set()  # the lines that their owner does not yield for now

    def step(self, text):
        """Writes a step, and gives the words of its answer: {"n": "1", "done": "ask"}. None of these programs makes one that is refused."""
        self.journal += text + "\n"
        answer = fabric.listing(self.journal).splitlines()[-2]
        words = dict(word.split("=") for word in answer.split())
        if "refused" in words:
            raise RuntimeError(f"{text}: {answer}")
        return words

    def serve(self, core, kind, line):
        """The manager answers the core's request, a load or a store of the line: with share, renew or own, or with recall."""
        answer = self.step(f"op=serve core={core.number}")["done"]
        if answer == "own":
            self.owner[line] = core
            self.where[line] = GRANTED
        if answer == "recall":
            self.recall[line] = kind
        return answer

    def yield_line(self, line):
        """The owner follows the recall. For a load it keeps a shared copy, for a store none."""
        self.step(f"op=yield line={line}")
        self.where[line] = RETURNING
        if self.recall[line] == "store":
            self.owner[line].copies.remove(line)

    def take(self, line):
        """The manager takes the line, which was yielded or written back."""
        self.step(f"op=take line={line}")
        del self.owner[line], self.where[line]
        self.recall.pop(line, None)

    def run(self, schedule, *programs):
        """Runs a program on each core, and gives the journal. The schedule is the cores' numbers in the order of their turns; it is gone
        through again and again until all programs have ended."""
        running = {str(core.number): program(core) for core, program in zip(self.cores, programs)}
        for number in itertools.cycle(schedule):
            if not running:
                return self.journal
            if number in running and next(running[number], "ended") == "ended":
                del running[number]


class Core:
    """An in-order core, which makes one access after the other."""

    def __init__(self, machine, number):
        self.machine = machine
        self.number = number
        self.copies = set()  # the lines of which it holds a copy

    def load(self, line):
        """Loads a line, and gives its bytes."""
        commit = yield from self.access("load", line, "")
        return bytes.fromhex(commit["data"])

    def store(self, line, data):
        """Stores a whole line."""
        yield from self.access("store", line, f" data={data.hex()}")

    def fence(self):
        """Makes a fence."""
        self.machine.step(f"op=fence core={self.number}")
        yield

    def advance(self, by):
        """The core's clock is advanced, and its leases come to their ends. A core does that now and then; it takes no turn."""
        self.machine.step(f"op=advance core={self.number} by={by}")

    def work(self, turns):
        """Takes turns without a step: the core computes."""
        for _ in range(turns):
            yield

    def access(self, kind, line, data):
        """A load or a store until it commits: at once, or after the core has fetched the line. Gives the commit."""
        step = f"op={kind} core={self.number} line={line}{data}"
        answer = self.machine.step(step)
        if answer.get("done") == "ask":
            yield
            yield from self.fetch(kind, line)
            answer = self.machine.step(step)
        yield
        return answer

    def fetch(self, kind, line):
        """What follows on a load or a store that asked, up to the receive. The turn goes on, so that what asked commits before anyone recalls
        the line. While a recall stands, the cores that wait for the line write the owner's yield and the manager's take."""
        machine = self.machine
        answer = "recall"
        while answer == "recall":
            if line not in machine.recall:
                answer = machine.serve(self, kind, line)
            elif machine.where[line] == RETURNING:
                machine.take(line)
            elif machine.where[line] == OWNED and line not in machine.held:
                machine.yield_line(line)
            yield
        if line not in self.copies and len(self.copies) == machine.cap:
            self.make_room()
            yield
        machine.step(f"op=receive core={self.number}")
        self.copies.add(line)
        if answer == "own":
            machine.where[line] = OWNED

    def make_room(self):
        """Gives up the copy that the fabric names: a shared one is dropped, an owned one goes back to the manager."""
        line = int(self.machine.step(f"op=victim core={self.number}")["line"])
        if self.owns(line):
            self.machine.step(f"op=writeback core={self.number} line={line}")
            self.machine.where[line] = RETURNING
            self.machine.take(line)
        else:
            self.machine.step(f"op=drop core={self.number} line={line}")
        self.copies.remove(line)

    def owns(self, line):
        """Whether the core's copy of the line is an owned one."""
        return self.machine.owner.get(line) is self and self.machine.where[line] == OWNED

    def own(self, line, data):
        """Gets the line as its owner, if it is not: with a store that asks, and does not come again to commit. The turn goes on."""
        if not self.owns(line):
            self.machine.step(f"op=store core={self.number} line={line} data={data.hex()}")
            yield
            yield from self.fetch("store", line)

    def compare_and_swap(self, line, old, new):
        """Stores the new bytes if the line has the old ones, and says whether it had. The fabric has no step for it: a core makes it of the
        owned line, a fence, a load, a store and a fence.

        It is atomic since the owner does not yield the line in between: from the receive on there is no end of a turn. So in the sorted
        order, by timestamp and then by place, no other store to the line stands between the load and the store. Those made before are at
        most at the copy's wts, and the load is not before that: where the copy is not dirty, a load takes lts to wts; where it is, wts is
        at most sts, to which the first fence takes lts. (Without that fence, a load of a dirty line may stand before the store whose bytes
        it gives.) Those made later are past the copy's rts, which is the new store's timestamp or more. The last fence keeps the core's
        later loads behind the new store, as the lock prefix of x86 does; a swap that fails has no store, and needs none.
        """
        yield from self.own(line, new)
        self.machine.step(f"op=fence core={self.number}")
        found = self.machine.step(f"op=load core={self.number} line={line}")["data"]
        if found == old.hex():
            self.machine.step(f"op=store core={self.number} line={line} data={new.hex()}")
            self.machine.step(f"op=fence core={self.number}")
        yield
        return found == old.hex()

    def hold(self, line):
        """Gets the line as its owner and does not yield it before the release, whoever recalls it."""
        yield from self.own(line, bytes(self.machine.width))
        self.machine.held.add(line)
        yield

    def release(self, line):
        """Lets a held line go."""
        self.machine.held.discard(line)
        yield


# ---- Treiber's stack: line 0 is Head, lines 1 to 3 are the nodes. The two bytes of a node are its value and its next; those of Head are 0 and
# the node on top. As a node's number 0 is null.

HEAD = 0


def treiber_stack(hold):
    """Three cores; each pushes a node of its own and then pops one."""
    def program(core):
        node = core.number + 1
        yield from push(core, node, 0xA0 + node, hold)
        yield from pop(core, hold)

    return Machine("fabric=1 cores=3 lines=4 width=2 lease=10").run("012", program, program, program)


def push(core, node, value, hold):
    """Points the node to the top and swaps it in, until nobody else has changed Head in between."""
    swapped = False
    while not swapped:
        if hold:
            yield from core.hold(HEAD)
        head = yield from core.load(HEAD)
        yield from core.store(node, bytes([value, head[1]]))
        swapped = yield from core.compare_and_swap(HEAD, head, bytes([0, node]))
        if hold:
            yield from core.release(HEAD)


def pop(core, hold):
    """Swaps in the node below the top, until nobody else has changed Head in between; gives the top's value. The stack is not empty: each
    core pushes before it pops."""
    swapped = False
    while not swapped:
        if hold:
            yield from core.hold(HEAD)
        head = yield from core.load(HEAD)
        value, below = yield from core.load(head[1])
        swapped = yield from core.compare_and_swap(HEAD, head, bytes([0, below]))
        if hold:
            yield from core.release(HEAD)
    return value


# ---- The queue of Michael and Scott: line 0 is head, line 1 is tail, and node k is line 2 + k. The two bytes of a node are its value and its
# next; those of head and tail are 0 and a node. Node 0 is the first dummy, and never a next: as a next, 0 is null.

TAIL, NODES = 1, 2


def michael_scott_queue():
    """Three cores; each enqueues a node of its own, and two of them then dequeue one. Core 0 is stopped for 25 rounds after 13."""
    def enqueues(core):
        node = core.number + 1
        yield from enqueue(core, node, 0xB0 + node)

    def enqueues_and_dequeues(core):
        yield from enqueues(core)
        yield from dequeue(core)

    schedule = 13 * "012" + 25 * "12"
    machine = Machine("fabric=1 cores=3 lines=6 width=2 lease=10")
    return machine.run(schedule, enqueues, enqueues_and_dequeues, enqueues_and_dequeues)


def enqueue(core, node, value):
    """Puts the node behind the last one and then swings tail to it. Where tail has fallen behind, it is swung first."""
    yield from core.store(NODES + node, bytes([value, 0]))
    while True:
        tail = yield from core.load(TAIL)
        last = yield from core.load(NODES + tail[1])
        if tail != (yield from core.load(TAIL)):
            continue
        if last[1] != 0:
            yield from core.compare_and_swap(TAIL, tail, bytes([0, last[1]]))
        elif (yield from core.compare_and_swap(NODES + tail[1], last, bytes([last[0], node]))):
            yield from core.compare_and_swap(TAIL, tail, bytes([0, node]))
            return


def dequeue(core):
    """Swings head to the first node, which is the dummy from then on, and gives its value; None where the queue is empty."""
    while True:
        head = yield from core.load(HEAD)
        tail = yield from core.load(TAIL)
        dummy = yield from core.load(NODES + head[1])
        if head != (yield from core.load(HEAD)):
            continue
        if head != tail:
            first = yield from core.load(NODES + dummy[1])
            if (yield from core.compare_and_swap(HEAD, head, bytes([0, dummy[1]]))):
                return first[0]
        elif dummy[1] == 0:
            return None
        else:
            yield from core.compare_and_swap(TAIL, tail, bytes([0, dummy[1]]))


# ---- Spin waiting: line 0 is the data, line 1 the flag.

DATA, FLAG = 0, 1


def spin_waiting(period):
    """Core 1 waits for core 0's signal; its clock is advanced by 1 after every so many loads."""
    machine = Machine("fabric=1 cores=2 lines=2 width=4 lease=8")
    return machine.run("10", signal, lambda core: wait(core, period))


def signal(core):
    """Computes for a while, stores the data, and sets the flag."""
    yield from core.work(60)
    yield from core.store(DATA, bytes.fromhex("0000cafe"))
    yield from core.store(FLAG, bytes.fromhex("00000001"))


def wait(core, period):
    """Loads the flag until it is set, and then the data."""
    loads = 0
    while not any((yield from core.load(FLAG))):
        loads += 1
        if loads % period == 0:
            core.advance(1)
    yield from core.load(DATA)


# ---- Lamport's bakery: lines 0 to 2 are flag[0] to flag[2], lines 3 to 5 are label[0] to label[2], and line 6 is a counter that the lock is
# to guard.

FLAGS, LABELS, COUNTER = range(0, 3), range(3, 6), 6


def bakery(fences):
    """Three cores; each takes the lock once and counts."""
    def program(core):
        yield from look(core)
        yield from lock(core, fences)
        count = yield from core.load(COUNTER)
        yield from core.store(COUNTER, bytes([count[0] + 1]))
        yield from core.store(FLAGS[core.number], b"\x00")

    return Machine("fabric=1 cores=3 lines=7 width=1 lease=10").run("012", program, program, program)


def others(core):
    """The numbers of the other cores."""
    return [other.number for other in core.machine.cores if other is not core]


def look(core):
    """Looks once at the flags of the others, as a core has that took the lock before: it has leases on them."""
    for k in others(core):
        yield from core.load(FLAGS[k])


def lock(core, fences):
    """Raises the flag, takes a ticket higher than all, and waits while another core has its flag up and comes before: by its ticket, or
    with the same ticket by its number. With fences there is one after each store, before the loads that follow."""
    me = core.number
    yield from core.store(FLAGS[me], b"\x01")
    if fences:
        yield from core.fence()
    tickets = []
    for label in LABELS:
        tickets += yield from core.load(label)
    mine = max(tickets) + 1
    yield from core.store(LABELS[me], bytes([mine]))
    if fences:
        yield from core.fence()
    for k in others(core):
        while (yield from core.load(FLAGS[k])) == b"\x01" and ((yield from core.load(LABELS[k]))[0], k) < (mine, me):
            core.advance(4)
            yield from core.work(8)


# ---- The sieve of Eratosthenes: line i is the flag of the number i, from 2 on: 00 while i may be prime, 01 once it is crossed out. Lines 0
# and 1 are a barrier: core 0's and core 1's, 01 once the core has crossed out all that it has to.

SIEVE, ROOT = 16, 4


def sieve():
    """Two cores, with caches of four lines."""
    return Machine(f"fabric=2 cores=2 lines={SIEVE} width=1 lease=10 cap=4").run("01", primes, primes)


def primes(core):
    """A core's half of the primes below 16. Of the multiples p·k of each prime p below 4 it crosses out those with an even k, or with an odd
    one; it waits for the other core; then it reads the flags of one half of the numbers, and gives those that are prime."""
    me, other = core.number, 1 - core.number
    for p in range(2, ROOT):
        if (yield from core.load(p)) == b"\x00":
            for k in range(2, -(-SIEVE // p)):
                if k % 2 == me:
                    yield from core.store(p * k, b"\x01")
    yield from core.store(me, b"\x01")
    while (yield from core.load(other)) == b"\x00":
        core.advance(1)
    found = []
    for i in [range(2, 9), range(9, SIEVE)][me]:
        if (yield from core.load(i)) == b"\x00":
            found.append(i)
    return found


WORKLOADS = {
    "treiber-stack": lambda: treiber_stack(hold=False),
    "treiber-stack-held": lambda: treiber_stack(hold=True),
    "michael-scott-queue": michael_scott_queue,
    "spin-waiting": lambda: spin_waiting(period=20),
    "spin-waiting-eager": lambda: spin_waiting(period=2),
    "bakery": lambda: bakery(fences=False),
    "bakery-fences": lambda: bakery(fences=True),
    "sieve": sieve,
}


def tally_line(journal):
    """The line that tally prints."""
    return " ".join(f"{name}={count}" for name, count in fabric.tally(journal).items()) + "\n"


def main():
    """Writes all workloads."""
    folder = sys.argv[1] if len(sys.argv) > 1 else HERE
    os.makedirs(folder, exist_ok=True)
    for name, workload in WORKLOADS.items():
        journal = workload()
        texts = {"journal": journal, "listing": fabric.listing(journal), "tally": tally_line(journal)}
        for kind, text in texts.items():
            with open(os.path.join(folder, f"{name}.{kind}"), "w", encoding="ascii", newline="") as file:
                file.write(text)


if __name__ == "__main__":
    main()
