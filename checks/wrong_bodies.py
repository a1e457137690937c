#!/usr/bin/env python3
"""Tries wrong bodies: each edit crates/NAME/wrong/*.edit makes a body wrong, and the prover must refuse it for the function's contract.

    checks/wrong_bodies.py [NAME ..]     the crates of these names, or all

An edit is written as a must-fail edit of rt: a line 'file: src/lib.rt', then pairs of lines 'old: TEXT' and 'new: TEXT', each TEXT one line.

All edits of a crate share one check. For each, a copy of the function with the wrong body stands behind the function, under the same
contract and with a copy of its answers, and nothing calls it. So no refusal reaches another function, and several edits may change one
function. One more copy has the right body and must pass: it is the control. Where a copy is no fair test (the function is in a cycle of
calls or in an impl of a trait, the edit changes more than one body, the control fails), the edit is tried in place, in a check of its own,
and the function as it stands is the control. Since `rt ci` has proved the crate, these checks look at contracts alone: the other functions
have no body there, and a hole for a proof, which the prover takes by its statement. So run `rt ci` first.

An edit is refused only where its own function is not proved for a goal that the prover names. One that does not compile, that takes away a
name which the answers cite, for which only another function is refused, or that gets no verdict, counts as not refused, as one that passes
does. What was refused is kept on this machine, by the sums of the edit, of its crate and all below, of the kit and of this program, and is
not tried again. What the prover said stands in crates/NAME/out/wrong/. The status is 1 if any edit is not refused.
"""

import hashlib
import os
import re
import shutil
import signal
import subprocess
import sys
import tempfile
from collections import namedtuple
from pathlib import Path

TOP = Path(__file__).resolve().parent.parent
sys.path.insert(0, str(TOP / "bin"))
from kept import crates_in, give_libraries, rt_module  # noqa: E402

KEPT = Path(os.environ.get("XDG_CACHE_HOME") or Path.home() / ".cache") / "wrong_bodies"

# A function of src/: where its text begins (with its attributes), its body and its end; the folder of its answers, and that of its cycle of
# calls; what --only calls it; whether a copy of it is a fair test, and whether a check of others can do without its body.
Function = namedtuple("Function", "file name start body end answers cycle asked is_alone is_plain")
# An edit, the functions whose bodies it changes, whether it is tried by a copy, and why it cannot be tried, if so.
Edit = namedtuple("Edit", "name text pairs functions by_copy why")
# What the prover says of one function: its path, the words of its line, and the goals that were named before that line.
Line = namedtuple("Line", "path words goals")
# A check: its lines on functions, all that was said, and whether it came to its end.
Check = namedtuple("Check", "lines said has_ended")
# What became of an edit, and in which words.
Verdict = namedtuple("Verdict", "is_refused words")

# ---- The functions of a file, as rt fmt lays it out: each ends with the first brace at its own indentation. ----

HEAD = re.compile(r"^( *)(?:pub(?:\([^)]*\))? )?(?:const |unsafe )*fn (\w+)", re.M)
BLOCK = re.compile(r"^(?:pub(?:\([^)]*\))? )?(?:impl|trait|mod)\b[^{;]*\{", re.M)
# A comment or a string, whose text may look like code, or what may look like the quotes of one.
LITERAL = re.compile(r"""//[^\n]*|'"'|'\\"'|"(?:[^"\\]|\\.)*\"""", re.S)


def functions_of(folder, file, text):
    text = LITERAL.sub(lambda it: re.sub(r"[^\n]", " ", it[0]), text)
    for head in HEAD.finditer(text):
        line = text[head.start() : text.find("\n", head.start())]
        if "{" in line and line.count("{") == line.count("}"):
            # (a helper that an edit adds stands whole in its line, and keeps its body)
            continue
        end = re.compile(rf"^{head[1]}\}}$", re.M).search(text, head.end())
        # (a declaration has no body, and one that stands in a line is none that an edit would change)
        body = re.compile(rf"^{head[1]}(?:\S.*)?([{{}};])$", re.M).search(text, head.start())
        if end and body[1] == "{" and body.end() <= end.start():
            yield placed(folder, file, text, head, body.end(), end.end())


def placed(folder, file, text, head, body, end):
    """A function with the places of its answers. A method has them at its type, wherever that is declared."""
    name, module = head[2], re.sub(r"^src/|/?\b(lib|main|mod)\.rt$|\.rt$", "", file)
    block = (BLOCK.findall(text[: head.start()]) or [""])[-1] if head[1] else ""
    impl = re.match(r"impl(?:<.*?>)? +(?:\w+::)*(\w+)(?!.* for )", block, re.S)
    is_free, home = bool(impl or not head[1]), folder / "proofs" / module
    is_here = not impl or re.search(rf"^(?:pub.* )?(?:struct|enum) {impl[1]}\b", text, re.M)
    if impl:
        home = home / impl[1] if is_here else next((folder / "proofs").rglob(f"{impl[1]}/{name}"), home).parent
    start = head.start() - len(re.search(r"(?:^ *#\[.*\n)*\Z", text[: head.start()], re.M)[0])
    label = re.search(r"#\[cycle\((\w+)\)\]", text[start : head.start()])
    cycle = home / f"+{label[1] if label else name}"
    asked = f"{impl[1] if impl else module}/{name}".lstrip("/") if is_free else module
    is_alone = is_free and not label and not cycle.exists()
    # (the statement of a generic function has another form than that of a hole, and what is const is computed with)
    is_generic = re.match(r"impl<[^>]*[A-Z]", block) or re.match(r"<[^>(]*[A-Z]|[^{]*\bimpl ", text[head.end() : body])
    is_plain = bool(is_free and is_here and not is_generic and "const fn" not in head[0])
    return Function(file, name, start, body, end, home / name, cycle, asked.replace("/", "::"), is_alone, is_plain)


def edit_of(rt, folder, path):
    """The edit of a file, held to what rt asks of a must-fail edit, and to change a body and no contract, definition or proof."""
    text, file, old, pairs, functions = path.read_text(), None, None, [], []
    why = rt.edited(text, str(folder))[1] or (None if path.suffix == ".edit" else "its name does not end in .edit")
    for line in [] if why else text.split("\n"):
        file = line[6:].strip() if line.startswith("file: ") else file
        old = line[5:] if line.startswith("old: ") else old
        pairs += [(file, old, re.sub(r"\Anew: ?", "", line))] if line.startswith("new:") else []
    for file, old, _ in pairs:
        source = (folder / file).read_text()
        around = [it for it in functions_of(folder, file, source) if it.start <= source.find(old) < it.end][-1:]
        if not file.startswith("src/") or (around and source.find(old) < around[0].body):
            why = "it changes a contract, a definition or a proof"
        functions += around
    changed = tuple(dict.fromkeys(functions))
    by_copy = len(functions) == len(pairs) and len(changed) == 1 and functions[0].is_alone
    return Edit(path.stem, text, tuple(pairs), changed, by_copy, why or (None if changed else "it changes the body of no function"))


# ---- What the prover says. ----

# A goal with no answer; and an answer that names what an edit took away, or that waits for such a one.
OPEN = re.compile(r"note: \S+:\d+:\d+: (?:it is not proved|`search` found no proof).*\(`([^`]+)`\)")
LOST_NAME = re.compile(r"has no field|is not in scope|has no `|is no name|was not admitted")
# Of a function that passes, under --allow-holes; and of one that does not.
PASSES = ("no holes", "depends on a hole in")
FAILS = ("not proved", "no proof")


def read_check(said):
    """A check by what was said: the notes on the goals of a function stand above the function's line."""
    lines, goals = [], []
    for line in said.splitlines():
        goals += OPEN.findall(line)
        if line.startswith("fn "):
            lines.append(Line(*line[3:].split(": ", 1), goals))
            goals = []
    return Check(lines, said, bool(re.search(r"(?m)^only=\d+ holes=\d+$", said)))


def verdict_of(check, name, answers):
    """What a check says of the functions of such a name, whose answers stand in a folder of such a path. None if it says nothing."""
    own = [it for it in check.lines if re.search(rf"::(?:{name})$", it.path)]
    failing = [it for it in own if it.words.startswith(FAILS)]
    errors = re.findall(rf"(?m)^\./proofs/{answers}/\w+\.antt:\d+:\d+: error: `([^`]+)`: (.*)", check.said)
    goals = [goal for it in failing for goal in it.goals] + [goal for goal, why in errors if not LOST_NAME.search(why)]
    # (of a function whose body was left out)
    goals = [goal for goal in goals if not goal.endswith("unreachable-requires")]
    uncompiled = None if check.has_ended else re.search(r"(?m)^\S+\.rt:\d+:\d+: error.*", check.said)
    if failing and goals:
        return Verdict(True, f"refused at {', '.join(dict.fromkeys(goals))}")
    if own and all(it.words.startswith(PASSES) for it in own):
        return Verdict(False, "NOT REFUSED: the function passes with this body")
    if uncompiled:
        return Verdict(False, f"BAD EDIT: it does not compile: {uncompiled[0][:200]}")
    if failing and errors:
        return Verdict(False, f"BAD EDIT: the answers name what it took away: {errors[0][1][:200]}")
    if failing:
        return Verdict(False, f"BAD EDIT: no goal of its own is open: {failing[0].words[:200]}")
    return None


# ---- The tries of a crate's edits. ----

HOLE = "use {0}.Statement.{{statement}}\n\npub {1}_spec : {{M : Type 1}} → statement M\n{1}_spec = ?\n"


class Trial:
    """Verdicts on a crate's edits, by name; how many checks they took, in which processor time and memory."""

    def __init__(self, rt, crate, edits):
        self.rt, self.crate, self.edits, self.folder = rt, crate, edits, Path(crate.folder)
        self.verdicts = {it.name: Verdict(False, f"BAD EDIT: {it.why}") for it in edits if it.why}
        self.checks, self.seconds, self.kilobytes = 0, 0, 0

    def run(self, jobs):
        edits = [it for it in self.edits if not it.why]
        copied, in_place = [it for it in edits if it.by_copy], [it for it in edits if not it.by_copy]
        with tempfile.TemporaryDirectory(prefix=f"rt-edits-{os.getpid()}-") as self.proved:
            control = self.try_copies(copied, in_place, jobs) if edits else None
            lost = [it for it in copied if it.name not in self.verdicts]
            self.try_in_place(in_place + lost, None if lost else control)

    def try_copies(self, edits, others, jobs):
        """Tries edits by copies, and checks the functions of the others. An edit whose own control does not pass gets no verdict."""
        copies = [(edit, edit.functions[0], edit.pairs) for edit in edits]
        copies += [(it, it, ()) for it in dict.fromkeys(edit.functions[0] for edit in edits)]
        texts, names = {}, {}
        # (from the last function to the first, so that the places of those before it stay)
        for number, (what, function, pairs) in enumerate(sorted(copies, key=lambda it: -it[1].end)):
            names[what] = f"{function.name}_wrong{number}"
            self.add_copy(texts, function, pairs, names[what])
        asked = {function.asked for edit in others for function in edit.functions}
        check = self.check(texts, {*names.values(), *asked}, cycles_of(others), jobs)
        for edit in edits:
            control = [it for it in check.lines if it.path.endswith(f"::{names[edit.functions[0]]}")]
            if check.has_ended and control and control[0].words.startswith(PASSES):
                self.settle(edit, check, names[edit], rf"(?:\S+/)?{names[edit]}")
        return check

    def add_copy(self, texts, function, pairs, name):
        """Adds a copy of the function and of its answers under this name, with these pairs of texts exchanged in it."""
        text = (self.folder / function.file).read_text()
        copy = text[function.start : function.end]
        for _, old, new in pairs:
            copy = copy.replace(old, new)
        copy = re.sub(rf"\bfn {function.name}\b", f"fn {name}", copy, count=1)
        text = texts.get(function.file, text)
        texts[function.file] = f"{text[: function.end]}\n\n{copy}{text[function.end :]}"
        own, other = (it.relative_to(self.folder) for it in (function.answers, function.answers.with_name(name)))
        cited, renamed = (".".join(["Rattle", self.crate.name, *it.parts, ""]) for it in (own, other))
        for file in function.answers.rglob("*.antt"):
            texts[str(other / file.relative_to(function.answers))] = file.read_text().replace(cited, renamed)

    def try_in_place(self, edits, control):
        """Tries each edit in a check of its own, where the control passes the functions as they stand."""
        asked = {function.asked for edit in edits for function in edit.functions}
        control = control or (self.check({}, asked, cycles_of(edits)) if edits else None)
        for edit in edits:
            name = "|".join(sorted({it.name for it in edit.functions}))
            passed = [it.words.startswith(PASSES) for it in control.lines if re.search(rf"::(?:{name})$", it.path)]
            if control.has_ended and passed and all(passed):
                texts = self.rt.edited(edit.text, str(self.folder))[0]
                check = self.check(texts, {it.asked for it in edit.functions}, cycles_of(edits))
                self.settle(edit, check, name, r"\S+")
            why = f"NO VERDICT: crates/{self.crate.name}/out/wrong/{self.checks} may say why"
            self.verdicts.setdefault(edit.name, Verdict(False, why))

    def settle(self, edit, check, name, answers):
        verdict = verdict_of(check, name, answers)
        if verdict:
            self.verdicts[edit.name] = verdict

    def check(self, texts, asked, whole, jobs=1):
        """Checks what is asked for, with these texts in place of the crate's own. Only copies and these cycles of calls keep their bodies."""
        with tempfile.TemporaryDirectory(prefix=f"rt-edit-{os.getpid()}-") as room:
            for part in self.rt.rtlib.PARTS:
                if (self.folder / part).is_dir():
                    shutil.copytree(self.folder / part, f"{room}/{part}")
            for path, text in texts.items():
                os.makedirs(os.path.dirname(f"{room}/{path}"), exist_ok=True)
                Path(room, path).write_text(text)
            for path in Path(room, "src").rglob("*.rt"):
                self.leave_out_bodies(Path(room), path, {it.relative_to(self.folder) for it in whole})
            flags = ["--jobs", str(jobs), "--allow-holes", "--incremental", self.proved]
            words = self.crate.words(flags + [word for name in sorted(asked) for word in ("--only", name)], keeps=False)
            return self.said_by_prover(words, room)

    def leave_out_bodies(self, room, path, whole):
        """A function without its body is in no cycle of calls. A hole stands for its proof."""
        text = path.read_text()
        for it in reversed(list(functions_of(room, path.relative_to(room).as_posix(), text))):
            if it.is_plain and not re.search(r"_wrong\d+$", it.name) and it.cycle.relative_to(room) not in whole:
                head = re.sub(r" *#\[cycle.*\n", "", text[it.start : it.body])
                text = f"{text[: it.start]}{head}\nunreachable!()\n}}{text[it.end :]}"
                shutil.rmtree(it.cycle, ignore_errors=True)
                shutil.rmtree(it.answers, ignore_errors=True)
                it.answers.mkdir(parents=True)
                named = ".".join(["Rattle", self.crate.name, *it.answers.relative_to(room).parts])
                (it.answers / "Proof.antt").write_text(HOLE.format(named, it.name))
        path.write_text(text)

    def said_by_prover(self, words, room):
        self.checks += 1
        said = self.folder / f"out/wrong/{self.checks}"
        said.parent.mkdir(parents=True, exist_ok=True)
        with said.open("w") as file:
            how = {"cwd": room, "stdin": subprocess.DEVNULL, "stdout": file, "stderr": file}
            ran = subprocess.Popen([*self.rt.rtlib.guarded(), self.rt.rtlib.RATTLE, "check", *words], **how)
            _, ran.returncode, used = os.wait4(ran.pid, 0)
        self.seconds += used.ru_utime + used.ru_stime
        self.kilobytes = max(self.kilobytes, used.ru_maxrss)
        if os.waitstatus_to_exitcode(ran.returncode) == -signal.SIGKILL and "1" != words[words.index("--jobs") + 1]:
            # (most likely for memory)
            words[words.index("--jobs") + 1] = "1"
            return self.said_by_prover(words, room)
        return read_check(said.read_text(errors="replace"))


def cycles_of(edits):
    return {function.cycle for edit in edits for function in edit.functions}


# ---- All crates. ----


class Store:
    """What earlier runs saw refused, in a file for each edit, over the files that it stood on."""

    def __init__(self, rt):
        self.rt, self.program, self.seen = rt, Path(__file__).read_bytes(), {}
        KEPT.mkdir(parents=True, exist_ok=True, mode=0o700)

    def places(self, crate, edits, seen):
        """By name, where it is kept that an edit was refused. What is seen of crates' files is not read again."""
        stood_on = (self.program, self.rt.stamp_of(crate, seen))
        return {it.name: KEPT / hashlib.sha256(repr((*stood_on, it.name, it.text)).encode()).hexdigest() for it in edits}

    def split(self, crate, edits):
        """The verdicts that are kept, the edits to try, and the places of all."""
        places = self.places(crate, edits, self.seen)
        kept = {it.name: Verdict(True, places[it.name].read_text()) for it in edits if places[it.name].is_file()}
        return kept, [it for it in edits if it.name not in kept], places

    def keep(self, trial, places):
        """Keeps what was refused, if no file that it stood on has changed meanwhile."""
        now = self.places(trial.crate, trial.edits, {})
        for name, verdict in trial.verdicts.items():
            if verdict.is_refused and now[name] == places[name]:
                places[name].write_text(verdict.words)


def tell(name, verdicts, how):
    lines = [f"  {it}: {words}" for it, (_, words) in sorted(verdicts.items())]
    print("\n".join([f"{name}: {len(verdicts)} edits, {how}", *lines]), flush=True)


def work(trial, kept, places, store, jobs):
    trial.run(jobs)
    store.keep(trial, places)
    how = f"{len(trial.edits)} tried in {trial.checks} checks, {trial.seconds:.0f} processor seconds, {trial.kilobytes >> 10} MB"
    tell(trial.crate.name, {**kept, **trial.verdicts}, how)
    return [it.is_refused for it in trial.verdicts.values()]


def main():
    rt = rt_module()
    crates = crates_in(rt, str(TOP))
    rt.share_work(False)
    # (its first call sets a signal's handler, which only the main thread may)
    rt.rtlib.guarded()
    give_libraries(rt, crates)
    store, tasks, refused = Store(rt), {}, 0
    for crate in crates:
        files = sorted(Path(crate.folder, "wrong").glob("*")) if crate.name in sys.argv[1:] or len(sys.argv) == 1 else []
        kept, new, places = store.split(crate, [edit_of(rt, Path(crate.folder), it) for it in files])
        refused += len(kept)
        if kept and not new:
            tell(crate.name, kept, "kept from an earlier run")
        if new and any(it.build_rlib(["--jobs", "1"], anew=False) for it in crate.below()):
            sys.exit(f"a library below {crate.name} is not proved")
        if new:
            given = (Trial(rt, crate, new), kept, places, store)
            # (under this word rt gives a task the processors that no other needs; of the memory of a whole check they take two thirds at most)
            needs = rt.OVER * rt.need(crate)
            tasks[crate.name, "seed"] = [], crate.count(rb"\n"), needs, lambda _, jobs, given=given: work(*given, jobs)
    verdicts = [it for some in rt.in_lanes(tasks).values() for it in some]
    refused += sum(verdicts)
    print(f"{refused} refused, {len(verdicts) - sum(verdicts)} not")
    sys.exit(0 if all(verdicts) else 1)


if __name__ == "__main__":
    main()
