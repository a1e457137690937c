"""Programs of trees: their passes, statements and texts."""

from collections import namedtuple

from dimensions import Several
from transforms import COOLEY_TUKEY, GOOD_THOMAS, LEAF, entry, forward, is_kernel, is_plain, last_factor, powers, tree_size

# Places: a constant, multiples of variables and of products of two, and multiples of remainders. The processor is the
# variable of depth -1.

Variable = namedtuple("Variable", "depth count")
Place = namedtuple("Place", "constant products remainders")


def constant(value):
    return Place(value, (), ())


def variable(*variables):
    return Place(0, ((1, variables),), ())


def plus(one, other):
    return Place(one.constant + other.constant, one.products + other.products, one.remainders + other.remainders)


def times(place, factor):
    products = tuple((f * factor, variables) for f, variables in place.products)
    remainders = tuple((f * factor, inner, n) for f, inner, n in place.remainders)
    return Place(place.constant * factor, products, remainders)


def greatest(place):
    """A value that the place does not exceed: of a remainder, the less of its divisor's and its inside's."""
    value = place.constant + sum(f * min(n - 1, greatest(inner)) for f, inner, n in place.remainders)
    for factor, variables in place.products:
        for v in variables:
            factor *= v.count - 1
        value += factor
    return value


def modulo(place, n):
    """The remainder by n: every factor is taken modulo n first, and what is below n then stands alone."""
    inner = Place(
        place.constant % n,
        tuple((f % n, variables) for f, variables in place.products if f % n),
        tuple((f % n, inside, m) for f, inside, m in place.remainders if f % n),
    )
    return inner if greatest(inner) < n else Place(0, (), ((1, inner, n),))


def name(depth):
    return "q" if depth < 0 else f"v{depth}"


def place_text(place):
    products = sorted((len(variables), [v.depth for v in variables], f) for f, variables in place.products)
    text = str(place.constant)
    for _, depths, factor in products:
        text += "+" + "*".join(map(name, depths)) + f"*{factor}"
    return text + "".join(f"+({place_text(inner)})%{n}*{factor}" for factor, inner, n in place.remainders)


def value_at(place, turns):
    """The place where each variable has the value that is given for its depth."""
    value = place.constant + sum(f * (value_at(inner, turns) % n) for f, inner, n in place.remainders)
    for factor, variables in place.products:
        for v in variables:
            factor *= turns[v.depth]
        value += factor
    return value


def words_of(request, tree):
    """The words of a tree, or of several dimensions by a tree for each."""
    return request.size if isinstance(request, Several) else tree_size(tree)


# Straight-line code: the inputs are in the first registers, and each action takes the next register.


class Kernel:
    """The code of a tree, or of several dimensions together by a tree for each."""

    def __init__(self, request, tree):
        self.modulus, self.actions, self.next = request.modulus, [], words_of(request, tree)
        self.outputs = self.of(request, tree, list(range(self.next)))

    def push(self, word, *operands):
        register = self.next
        self.next += 1
        self.actions.append((word, register, *operands))
        return register

    def multiplied(self, register, factor):
        """The register times the factor, of which 1 costs nothing and -1 no product."""
        if factor == 1:
            return register
        return self.push("neg", register) if factor == self.modulus - 1 else self.push("mul", register, factor)

    def leaf(self, request, inputs):
        """The sums of the definition, row by row."""
        d, outputs = len(inputs), []
        for k in range(d):
            total = inputs[0]
            for l in range(1, d):
                factor = entry(request, d, k, l)
                if factor == 1:
                    total = self.push("add", total, inputs[l])
                elif factor == self.modulus - 1:
                    total = self.push("sub", total, inputs[l])
                else:
                    total = self.push("add", total, self.push("mul", inputs[l], factor))
            outputs.append(total)
        return outputs

    def right_inputs(self, request, rule, inputs, r, s, i):
        """What the right part takes in its turn i."""
        if rule == GOOD_THOMAS:
            return [inputs[(s * i + r * j) % (r * s)] for j in range(s)]
        return [inputs[j * r + i if request.kind == "dft" else i * s + j] for j in range(s)]

    def node(self, request, tree, inputs):
        """The registers of the node's outputs."""
        if tree[0] == LEAF:
            return self.leaf(request, inputs)
        rule, r, left, right = tree
        d, s = len(inputs), len(inputs) // r
        between = []
        for i in range(r):
            values = self.node(request, right, self.right_inputs(request, rule, inputs, r, s, i))
            if rule == COOLEY_TUKEY and request.kind == "dft":
                values = [self.multiplied(v, powers(request, d)[i * k]) for k, v in enumerate(values)]
            between += values
        lists = [self.node(request, left, [between[i * s + k] for i in range(r)]) for k in range(s)]
        return [lists[k % s][k % r if rule == GOOD_THOMAS else k // s] for k in range(d)]

    def of(self, request, tree, inputs):
        """The registers of the outputs. Of several dimensions the others' code on each row, and then the first one's on
        each column."""
        if not isinstance(request, Several):
            return self.node(request, tree, inputs)
        first, s = request.parts[0], request.size // request.sizes[0]
        if s == 1:
            return self.node(first, tree[0], inputs)
        rows = [self.of(request.others, tree[1:], inputs[at : at + s]) for at in range(0, len(inputs), s)]
        columns = [self.node(first, tree[0], list(column)) for column in zip(*rows)]
        return [column[k] for k in range(first.size) for column in columns]


# Passes, from right to left, each with the loops around it and the places that it loads and stores as functions of its
# own places. A kernel or long leaf has a tree of the request (a kernel of several dimensions one for each), and a tile has
# none. The diagonal, or the constant for all, multiplies what is stored.

Pass = namedtuple("Pass", "request tree loops loaded stored diagonal phase")
Diagonal = namedtuple("Diagonal", "table place")
Constant = namedtuple("Constant", "value")


def opened(loops, count):
    """The loops with one more inside, and its variable. A loop of one turn is not written."""
    if count == 1:
        return loops, constant(0)
    loop = Variable(len(loops), count)
    return (*loops, loop), variable(loop)


def opened_root(request, count):
    """The loop of the root, of which each processor takes an equal run of turns."""
    if request.procs == 1:
        return opened((), count)
    run = count // request.procs
    loops, v = opened((), run)
    return loops, plus(times(variable(Variable(-1, request.procs)), run), v)


def twiddles(request, d, s):
    return [powers(request, d)[p // s * (p % s)] for p in range(d)]


def composed(outer, inner):
    return lambda k: outer(inner(k))


def right_loaded(request, rule, r, s, i):
    """Where the right part's turn i loads its place k from, in its node of size r*s."""
    if rule == GOOD_THOMAS:
        return lambda k: modulo(plus(times(i, s), times(k, r)), r * s)
    return lambda k: plus(times(k, r), i) if request.kind == "dft" else plus(times(i, s), k)


def left_stored(rule, r, s, j):
    """Where the left part's turn j stores its place k, in its node of size r*s."""
    if rule == GOOD_THOMAS:
        e1, e2 = s * pow(s, -1, r), r * pow(r, -1, s)
        return lambda k: modulo(plus(times(k, e1), times(j, e2)), r * s)
    return lambda k: plus(times(k, s), j)


def passes(request, tree, phase, loops, loaded, kept, stored, diagonal):
    """The passes of a node that loads, keeps between passes and stores at these places."""
    d = tree_size(tree)
    if is_kernel(request, d) or tree[0] == LEAF:
        yield Pass(request, tree, loops, loaded, stored, diagonal, phase)
        return
    rule, r, left, right = tree
    s = d // r
    right_loops, i = opened(loops, r)
    left_loops, j = opened(loops, s)
    here = composed(kept, lambda k: plus(times(i, s), k))
    first = composed(loaded, right_loaded(request, rule, r, s, i))
    factors = None
    if rule == COOLEY_TUKEY and request.kind == "dft":
        factors = Diagonal(twiddles(request, d, s), lambda k: plus(times(i, s), k))
    yield from passes(request, right, phase, right_loops, first, here, here, factors)
    here = composed(kept, lambda k: plus(times(k, s), j))
    last = left_stored(rule, r, s, j)
    if diagonal:
        diagonal = Diagonal(diagonal.table, composed(diagonal.place, last))
    yield from passes(request, left, phase, left_loops, here, here, composed(stored, last), diagonal)


def spread_passes(request, r, table, right, left):
    """The passes of a product of parts of sizes r and s, spread over processors and lanes, with the twiddles of a Fourier
    transform between them, or none. Where there are lanes, the right part takes vectors of one place of as many turns, and
    tiles lie around it. The parts' passes are given by their loops and places."""
    lanes, s = request.lanes, request.size // r
    loops, i = opened_root(request, r // lanes)
    tile_loops, k = opened(loops, s // lanes)

    def packed(k):
        return times(plus(times(i, s), k), lanes)

    def along(at):
        return packed(plus(times(k, lanes), constant(at)))

    def across(at):
        return plus(times(plus(times(i, lanes), constant(at)), s), times(k, lanes))

    def strided(k):
        return plus(times(k, r), times(i, lanes))

    if lanes > 1 and not table:
        yield Pass(request, None, tile_loops, across, along, None, 0)
    factors = Diagonal(table, packed) if table and lanes == 1 else None
    yield from right(loops, strided if table else packed, packed, factors)
    if lanes > 1:
        yield Pass(request, None, tile_loops, along, across, Diagonal(table, across) if table else None, 0)
    loops, j = opened_root(request, s // lanes)
    yield from left(int(request.procs > 1), loops, lambda k: plus(times(k, s), times(j, lanes)))


def spread_tree(request, tree):
    """The passes of a root whose parts are spread over processors and lanes."""
    _, r, left, right = tree
    table = twiddles(request, request.size, tree_size(right)) if request.kind == "dft" else None
    yield from spread_passes(
        request,
        r,
        table,
        lambda loops, loaded, kept, factors: passes(request, right, 0, loops, loaded, kept, kept, factors),
        lambda phase, loops, column: passes(request, left, phase, loops, column, column, column, None),
    )


def product_passes(request, trees, phase, loops, place):
    """The passes of dimensions on one processor: one of straight-line code, or those of the others on each row, and then
    those of the first on each column."""
    if is_kernel(request, request.size):
        yield Pass(request, trees, loops, place, place, None, phase)
        return
    first, s = request.parts[0], request.size // request.sizes[0]
    if s > 1:
        rows, i = opened(loops, first.size)
        along = composed(place, lambda k: plus(times(i, s), k))
        yield from product_passes(request.others, trees[1:], phase, rows, along)
    columns, j = opened(loops, s)
    here = composed(place, lambda k: plus(times(k, s), j))
    yield from passes(first, trees[0], phase, columns, here, here, here, None)


def spread_product(request, trees):
    """The passes of several dimensions, spread between the first and the others."""
    first = request.parts[0]
    yield from spread_passes(
        request,
        first.size,
        None,
        lambda loops, loaded, kept, factors: product_passes(request.others, trees[1:], 0, loops, kept),
        lambda phase, loops, column: passes(first, trees[0], phase, loops, column, column, column, None),
    )


def all_passes(request, tree):
    """The passes of a tree, or of several dimensions by a tree for each."""
    if isinstance(request, Several):
        plain = lambda: product_passes(request, tree, 0, (), lambda k: k)
        return list(plain() if is_plain(request) else spread_product(request, tree))
    if is_plain(request):
        return list(passes(request, tree, 0, (), *[lambda k: k] * 3, None))
    return list(spread_tree(request, tree))


def phase_count(request):
    return 2 if request.procs > 1 else 1


def loads_and_stores(request, tree):
    """A pass loads each word once, and a long leaf's pass each word for each of its outputs; each stores each word."""
    chain = all_passes(request, tree)
    sizes = [(one.request, words_of(one.request, one.tree)) for one in chain if one.tree]
    repeated = sum(request.size * (d - 1) for asked, d in sizes if not is_kernel(asked, d))
    return request.size * len(chain) + repeated, request.size * len(chain)


# Programs: statements are tuples of a word and its operands.

Program = namedtuple("Program", "request registers tables phases")


class Emitter:
    """The statements of a tree's passes. An equal list of constants is one table."""

    def __init__(self, request, tree):
        self.tables, self.registers = [], 0
        phases = [[] for _ in range(phase_count(request))]
        chain, read = all_passes(forward(request), tree), "X"
        if request.kind == "idft":
            chain[-1] = chain[-1]._replace(diagonal=Constant(last_factor(request)))
        for at, one in enumerate(chain):
            written = "Y" if at + 1 == len(chain) else "AB"[at % 2]
            phases[one.phase] += nested(one.loops, self.body(one, read, written))
            read = written
        self.program = Program(request, self.registers, self.tables, phases)

    def body(self, one, read, written):
        if one.tree is None:
            return self.tile(one, read, written)
        emit = self.kernel if is_kernel(one.request, words_of(one.request, one.tree)) else self.leaf
        return emit(one, read, written)

    def table(self, values):
        if values not in self.tables:
            self.tables.append(values)
        return self.tables.index(values)

    def stores(self, one, written, index, register, fresh, step=0):
        """The statements that store an output, multiplied by the diagonal into a fresh register before."""
        statements = []
        if isinstance(one.diagonal, Constant):
            statements.append(("mul", fresh, register, one.diagonal.value))
            register = fresh
        elif one.diagonal:
            table = self.table(one.diagonal.table)
            statements.append(("mul by", fresh, register, table, one.diagonal.place(index), step))
            register = fresh
        self.registers = max(self.registers, register + 1)
        return statements + [("st", written, one.stored(index), register)]

    def kernel(self, one, read, written):
        kernel = Kernel(one.request, one.tree)
        self.registers = max(self.registers, kernel.next)
        statements = [("ld", k, read, one.loaded(constant(k))) for k in range(len(kernel.outputs))]
        statements += kernel.actions
        for k, register in enumerate(kernel.outputs):
            statements += self.stores(one, written, constant(k), register, kernel.next + k)
        return statements

    def leaf(self, one, read, written):
        d, depth = tree_size(one.tree), len(one.loops)
        k, l = Variable(depth, d), Variable(depth + 1, d)
        self.registers = max(self.registers, 3)
        inner = [
            ("ld", 1, read, one.loaded(variable(l))),
            ("mul by", 2, 1, self.table(powers(one.request, d)), modulo(variable(k, l), d), 0),
            ("add", 0, 0, 2),
        ]
        return nested([k], [("zero", 0), *nested([l], inner), *self.stores(one, written, variable(k), 0, 3)])

    def tile(self, one, read, written):
        lanes = one.request.lanes
        statements = [("ld", at, read, one.loaded(at)) for at in range(lanes)] + [("tile", lanes, 0)]
        for at in range(lanes):
            statements += self.stores(one, written, at, lanes + at, 2 * lanes + at, step=1)
        return statements


def nested(loops, statements):
    for loop in reversed(loops):
        statements = [("for", loop, statements)]
    return statements


def padded(request):
    """The size rounded up to whole lines."""
    return -(-request.size // request.line) * request.line


def listing_line(word, operands):
    if word == "ld":
        return f"ld r{operands[0]} {operands[1]}[{place_text(operands[2])}]"
    if word == "st":
        return f"st {operands[0]}[{place_text(operands[1])}] r{operands[2]}"
    if word == "mul":
        return "mul r{} r{} {}".format(*operands)
    if word == "mul by":
        return f"mul r{operands[0]} r{operands[1]} t{operands[2]}[{place_text(operands[3])}] step {operands[4]}"
    return " ".join([word, *(f"r{register}" for register in operands)])


def listing_lines(statements):
    for word, *operands in statements:
        if word == "for":
            yield f"for {name(operands[0].depth)} {operands[0].count}"
            yield from listing_lines(operands[1])
            yield "end"
        else:
            yield listing_line(word, operands)


def header(program):
    asked = program.request
    machine = f"procs {asked.procs} line {asked.line} lanes {asked.lanes} regs {program.registers}"
    return f"program size {asked.size} mod {asked.modulus} {machine}"


def joined(lines):
    return "".join(line + "\n" for line in lines)


def listing(program):
    tables = [f"table {at} values {' '.join(map(str, values))}" for at, values in enumerate(program.tables)]
    phases = [line for phase in program.phases for line in ("phase", *listing_lines(phase), "end")]
    return joined([header(program), *tables, *phases])


C_ACTIONS = {
    "ld": "r[{0}][l] = {1}[{2} + l]",
    "st": "{0}[{1} + l] = r[{2}][l]",
    "zero": "r[{0}][l] = 0",
    "add": "r[{0}][l] = add(r[{1}][l], r[{2}][l])",
    "sub": "r[{0}][l] = sub(r[{1}][l], r[{2}][l])",
    "neg": "r[{0}][l] = sub(0, r[{1}][l])",
    "mul": "r[{0}][l] = mul(r[{1}][l], {2})",
    "mul by": "r[{0}][l] = mul(r[{1}][l], t{2}[{3} + {4} * l])",
    "tile": "for (int l = 0; l < V; l++) r[{0} + k][l] = r[{1} + l][k]",
}


def c_lines(statements):
    for word, *operands in statements:
        if word == "for":
            v = name(operands[0].depth)
            yield f"for (uint64_t {v} = 0; {v} < {operands[0].count}; {v}++) {{"
            yield from c_lines(operands[1])
            yield "}"
        else:
            operands = [place_text(x) if isinstance(x, Place) else x for x in operands]
            counter = "k" if word == "tile" else "l"
            yield f"for (int {counter} = 0; {counter} < V; {counter}++) {C_ACTIONS[word].format(*operands)};"


def c_phase(program, number, statements):
    return [
        f"void phase{number}(uint64_t q) {{",
        f"uint64_t r[{program.registers}][V];",
        "(void)q;",
        *c_lines(statements),
        "}",
    ]


def c_text(program):
    room = padded(program.request)
    head = [
        f"/* {header(program)} */",
        "#include <stdint.h>",
        f"#define M {program.request.modulus}ULL",
        f"#define V {program.request.lanes}",
        *(f"#define {array} (W + {at * room})" for at, array in enumerate("XYAB")),
        f"static uint64_t W[{4 * room}];",
    ]
    for at, values in enumerate(program.tables):
        head.append(f"static const uint64_t t{at}[{len(values)}] = {{{','.join(map(str, values))}}};")
    head += [
        "static uint64_t add(uint64_t a, uint64_t b) { uint64_t c = a + b; return c >= M ? c - M : c; }",
        "static uint64_t sub(uint64_t a, uint64_t b) { return a >= b ? a - b : a + M - b; }",
        "static uint64_t mul(uint64_t a, uint64_t b) { return (uint64_t)((unsigned __int128)a * b % M); }",
    ]
    phases = [line for number, phase in enumerate(program.phases) for line in c_phase(program, number, phase)]
    return joined(head + phases)
