"""A chunk of trace on both sides: what is asked of each program, what it must answer, and the comparison."""

import collections
import os
import subprocess

import model
import rules
import space
import traces

TOP = os.path.dirname(os.path.dirname(os.path.dirname(os.path.abspath(__file__))))
BUILDS = ("release", "debug")

# A chunk takes a few; a program that needs more does not end.
SECONDS = 300


class Side:
    """A program's input, and what is expected of its output."""

    def __init__(self):
        self.input, self.expected = [], []

    def ask(self, line, expected):
        self.input.append(line)
        self.expected.append(expected)

    def tell(self, line):
        self.input.append(line)


def answer(n, refusal, values, used):
    """Values are numbers, or text that is written as it is."""
    if not isinstance(values, str):
        values = " ".join("%x" % v for v in values)
    return "%d %s %s %d" % (n, refusal, values, used) if values else "%d %s %d" % (n, refusal, used)


class Chunk:
    """Episodes, their answers by document 01 for the port, and by the rules for the Rust. The Rust holds no slots: where a trace sets the port's
    records, its regions are given to it again once the space passes its check."""

    def __init__(self, steps):
        self.steps = steps
        self.sides = {"port": Side(), "release": Side(), "debug": Side()}
        self.lines = []
        self.starts = []
        self.calls = 0
        self.refusals = collections.Counter()
        self.rows = collections.Counter()
        self.pool = model.Pool(0x100000, 8, 1)
        self.space = space.Space(space.USER_ROOT)
        # whether the Rust holds what the space is
        self.is_held = True

    def add(self, episode):
        self.starts.append(len(self.lines))
        for line in episode:
            self.lines.append(line)
            n = len(self.lines)
            if line[0] in model.CALLS:
                self.call(n, line)
            elif line[0] in space.CALLS:
                self.hold()
                self.call(n, line)
            else:
                self.plain(n, line)
            self.pool.log.clear()

    def hold(self):
        """Gives the Rust the regions, if it holds others."""
        if not self.is_held and self.space.is_good():
            for build in BUILDS:
                self.sides[build].tell("!tree " + self.space.tree())
            self.is_held = True

    def plain(self, n, line):
        name, refusal, values = line[0], 0, [0]
        rust = None
        if name == "new":
            self.pool = model.Pool(*line[1:])
        elif name == "word":
            self.pool.set(line[1], line[2])
            self.pool.formed = None
        elif name == "sum":
            values = [self.pool.first, self.pool.second]
        elif name == "dump":
            taken = 512 * min(self.pool.used, self.pool.frames)
            values = [v for at in sorted(self.pool.words) if at < taken for v in (at, self.pool.words[at])]
        elif name in space.ROOTS:
            self.space = space.Space(space.ROOTS[name])
            self.is_held = True
        elif name in space.SETTERS:
            self.space.set(name, line[1:])
            self.is_held = False
        elif name == "space":
            values, rust = self.space.listing(), [0]
        elif name == "tree":
            self.hold()
            if self.space.is_good():
                values = self.space.tree()
            else:
                refusal = 12
        else:
            refusal = 16
        expected = answer(n, refusal, values, self.pool.used)
        text = traces.text(line)
        self.sides["port"].ask(text, expected)
        if rust is not None:
            expected = answer(n, refusal, rust, self.pool.used)
        elif refusal == 12:
            expected = None
        for build in BUILDS:
            self.sides[build].ask(text, expected)

    def call(self, n, line):
        pool, text, is_region = self.pool, traces.text(line), line[0] in space.CALLS
        self.calls += 1
        expected = {build: self.rust(line, build == "debug") for build in BUILDS}
        used, mark = pool.used, pool.mark()
        refusal, values, why = space.call(self.space, pool, line) if is_region else model.call(pool, line)
        self.refusals[line[0], refusal] += 1
        ordered = answer(n, refusal, values, pool.used)
        self.sides["port"].ask(text, ordered)
        for build in BUILDS:
            side, e = self.sides[build], expected[build]
            shown = None if e.refusal is None else answer(n, e.refusal, e.values, e.used)
            side.ask(text, shown)
            if refusal or e.refusal != "0" or e.other:
                side.ask("!undo", (used, e))
            if not refusal and (e.refusal != "0" or e.other):
                # the Rust stopped where the port went on, or did something else
                for at, word in pool.changes(mark).items():
                    side.tell("!word %x %x" % (at, word))
                side.tell("!used %x" % pool.used)
                if is_region:
                    side.tell("!tree " + self.space.tree())
            if shown != ordered or e.kept or e.other:
                if not e.rows:
                    raise AssertionError("a rule without a row: " + text)
                for row in e.rows:
                    self.rows[row, build] += 1

    def rust(self, line, debug):
        if line[0] in space.CALLS:
            return rules.rust_region(self.space, self.pool, line, debug)
        return rules.rust(self.pool, line, debug, self.steps)

    # Running

    def run(self, programs):
        """The first failure of each program, if any."""
        failures = []
        for name, command in programs.items():
            side = self.sides[name]
            try:
                done = subprocess.run(command, input="".join(l + "\n" for l in side.input).encode(), stdout=subprocess.PIPE, timeout=SECONDS)
            except subprocess.TimeoutExpired:
                failures.append("%s: not ended after %d seconds" % (name, SECONDS))
                continue
            got = done.stdout.decode().splitlines()
            if done.returncode != 0 or len(got) != len(side.expected):
                failures.append("%s: ended with %d after %d of %d answers" % (name, done.returncode, len(got), len(side.expected)))
            failures += self.compare(name, side.expected, got)
        return failures

    def compare(self, name, expected, got):
        n = 0
        for want, have in zip(expected, got):
            if isinstance(want, tuple):
                used, e = want
                fields = have.split(" ")
                left = len(fields) > 2 or int(fields[1]) != used
                if left and e.kept is False:
                    return [self.show(n, name, "nothing left behind", "left behind: " + have)]
                if not left and e.kept:
                    return [self.show(n, name, "words or frames left behind", "nothing left behind")]
                continue
            n += 1
            if want is not None and want != have:
                return [self.show(n, name, want, have)]
        return []

    def show(self, n, name, want, have):
        """The episode up to line n."""
        start = max(s for s in self.starts if s < n)
        lines = [traces.text(l)[:200] for l in self.lines[start:n] if l[0] not in ("sum", "dump", "tree", "space")]
        return "\n".join(["%s differs, and no rule says so:" % name] + ["    " + l for l in lines] + ["  expected  " + want[:1000], "  answered  " + have[:1000]])


def programs(steps, port):
    """The commands of both builds of the Rust, and of the port if it takes part."""
    commands = {} if port is None else {"port": [port]}
    for build in BUILDS:
        commands[build] = [os.path.join(TOP, "target/rust", build, "replay"), "01", str(steps)]
    return commands
