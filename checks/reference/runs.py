"""Runs of a program, action by action, with each phase done by one processor after the other."""

from emission import listing_line, padded, value_at


def actions_of(program, statements, turns):
    """The actions in order, with concrete numbers: places count through the arrays X, Y, A and B."""
    room, lanes = padded(program.request), range(program.request.lanes)
    for word, *operands in statements:
        if word == "for":
            for turn in range(operands[0].count):
                yield from actions_of(program, operands[1], {**turns, operands[0].depth: turn})
        elif word == "ld":
            yield "ld", operands[0], "XYAB".index(operands[1]) * room + value_at(operands[2], turns)
        elif word == "st":
            yield "st", "XYAB".index(operands[0]) * room + value_at(operands[1], turns), operands[2]
        elif word == "mul":
            yield "mul", operands[0], operands[1], [operands[2] for _ in lanes]
        elif word == "mul by":
            at, table = value_at(operands[3], turns), program.tables[operands[2]]
            yield "mul", operands[0], operands[1], [table[at + operands[4] * lane] for lane in lanes]
        else:
            yield word, *operands


def actions(program):
    """The processor and the action of each turn."""
    for statements in program.phases:
        for q in range(program.request.procs):
            for action in actions_of(program, statements, {-1: q}):
                yield q, action


def action_text(word, *operands):
    if word == "ld":
        return "ld r{} {}".format(*operands)
    if word == "st":
        return "st {} r{}".format(*operands)
    if word == "mul":
        return f"mul r{operands[0]} r{operands[1]} {','.join(map(str, operands[2]))}"
    return listing_line(word, operands)


def result(registers, modulus, word, operands):
    """What an action of arithmetic puts into its register."""
    if word == "zero":
        return [0] * len(registers[0])
    if word == "neg":
        return [-x % modulus for x in registers[operands[0]]]
    if word == "mul":
        return [x * factor % modulus for x, factor in zip(registers[operands[0]], operands[1])]
    pairs = zip(registers[operands[0]], registers[operands[1]])
    return [(x + y if word == "add" else x - y) % modulus for x, y in pairs]


def run(program, data):
    """What the program's run over the data leaves in Y."""
    request = program.request
    room, lanes = padded(request), request.lanes
    memory = data + [0] * (4 * room - request.size)
    registers = [[[0] * lanes for _ in range(program.registers)] for _ in range(request.procs)]
    for q, (word, to, *operands) in actions(program):
        own = registers[q]
        if word == "st":
            memory[to : to + lanes] = own[operands[0]]
        elif word == "ld":
            own[to] = memory[operands[0] : operands[0] + lanes]
        elif word == "tile":
            own[to : to + lanes] = map(list, zip(*own[operands[0] : operands[0] + lanes]))
        else:
            own[to] = result(own, request.modulus, word, operands)
    return memory[room : room + request.size]
