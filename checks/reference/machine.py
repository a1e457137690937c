"""The machine, event by event, with store buffers and without: what each event answers, and what a run leaves."""

from emission import padded
from runs import action_text, result

MULTIPLIER, INCREMENT = 6364136223846793005, 1442695040888963407


def events_of(word, procs):
    """The events that a schedule's word or a mix names, each a turn (t) or a drain (d) of a processor."""
    kind, _, rest = word.partition(":")
    if kind == "seq":
        return []
    if kind == "rr":
        return [("t", q) for q in range(procs)] * int(rest)
    if kind == "turns":
        return [("t", int(q)) for q in rest.split(",")]
    if kind == "mix":
        return [(event[0], int(event[1:])) for event in rest.split(",")]
    value, count = map(int, rest.split(":"))
    events = []
    for _ in range(count):
        value = (value * MULTIPLIER + INCREMENT) % 2**64
        events.append(("t", value // 2**33 % procs))
    return events


class Machine:
    """The lists are those of actions, for each phase and processor. A queue holds the stores of a processor that wait,
    each with its address and its words, the oldest first; without buffers a store waits for nothing."""

    def __init__(self, request, registers, lists, data, is_buffered=False):
        procs, room = request.procs, padded(request)
        self.request, self.lists, self.is_buffered = request, lists, is_buffered
        self.memory = data + [0] * (4 * room - request.size)
        self.registers = [[[0] * request.lanes for _ in range(registers)] for _ in range(procs)]
        self.phase, self.done, self.queues = 0, [0] * procs, [[] for _ in range(procs)]
        self.settle()

    def settle(self):
        while self.phase < len(self.lists) and not any(self.queues) and not any(map(self.left, range(len(self.done)))):
            self.phase, self.done = self.phase + 1, [0] * len(self.done)

    def left(self, q):
        """The actions that the processor has left in the phase."""
        return self.lists[self.phase][q][self.done[q] :] if self.phase < len(self.lists) else []

    def seen(self, q, address):
        for first, words in reversed(self.queues[q]):
            if first <= address < first + len(words):
                return words[address - first]
        return self.memory[address]

    def perform(self, q, word, to, *operands):
        own, lanes = self.registers[q], self.request.lanes
        if word == "st":
            self.queues[q].append((to, list(own[operands[0]])))
            if not self.is_buffered:
                self.write(q)
        elif word == "ld":
            own[to] = [self.seen(q, operands[0] + lane) for lane in range(lanes)]
        elif word == "tile":
            own[to : to + lanes] = map(list, zip(*own[operands[0] : operands[0] + lanes]))
        else:
            own[to] = result(own, self.request.modulus, word, operands)

    def write(self, q):
        address, words = self.queues[q].pop(0)
        self.memory[address : address + len(words)] = words
        return address

    def turn(self, q):
        """What the machine answers to a turn of the processor."""
        if self.phase == len(self.lists):
            return "done"
        left = self.left(q)
        if not left:
            return "waits"
        self.perform(q, *left[0])
        self.done[q] += 1
        self.settle()
        return action_text(*left[0])

    def drain(self, q):
        if not self.queues[q]:
            return "empty"
        address = self.write(q)
        self.settle()
        return f"drain {address}"

    def event(self, kind, q):
        return f"{q} {self.turn(q) if kind == 't' else self.drain(q)}"

    def completion(self):
        """Phase by phase each processor takes its actions left, and then drains its queue."""
        while self.phase < len(self.lists):
            phase = self.phase
            for q in range(len(self.done)):
                while self.phase == phase and self.left(q):
                    yield "t", q
                while self.phase == phase and self.queues[q]:
                    yield "d", q

    def results(self):
        room = padded(self.request)
        return self.memory[room : room + self.request.size]


def run_lines(machine, word):
    """The lines of a run under a schedule and its completion."""
    events = events_of(word, machine.request.procs)
    lines = [machine.event(*event) for event in events]
    lines += [machine.event(*event) for event in machine.completion()]
    return "".join(f"{number} {line}\n" for number, line in enumerate(lines))
