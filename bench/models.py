"""Models near the limits, and how a run of the program is measured. The scripts beside it use both."""
import os
import random
import resource
import signal
import subprocess

# Statuses of a run that was ended for its processor time.
GIVEN_UP = (-signal.SIGXCPU, -signal.SIGKILL)

DIGITS = "0123456789abcdefghijklmnopqrstuvwxyz"


def short_name(number):
    """A name of three bytes, one for each number up to 33,695."""
    return DIGITS[10 + number // 1_296].upper() + DIGITS[number // 36 % 36] + DIGITS[number % 36]


def many_statements(count):
    """As many statements as wanted: 20,000 tasks, and contributions between them."""
    elements = 20_000
    for i in range(elements):
        yield f"task {short_name(i)}"
    for i in range(count - elements):
        yield f"contrib {short_name(i % elements)} {short_name((i * 7 + 1) % elements)}"


def chain(count, is_leaf_first):
    """A chain of `count` goals, each the target of a refinement whose source is the goal before it."""
    for i in range(count):
        yield f"goal G{i}"
    links = range(count - 1)
    for i in links if is_leaf_first else reversed(links):
        yield f"refine R{i} G{i + 1} : G{i}"


def nested_rules(nodes):
    """Rules of 1,000 formula nodes each: a disjunction of 499 negated names and one name."""
    for i in range(500):
        yield f"task T{i}"
    parts = " ".join(f"(not T{i})" for i in range(499))
    for _ in range(nodes // 1_000):
        yield f"require (or {parts} T499)"


def comparisons(nodes):
    """Rules of 100 formula nodes each: one comparison with 99 terms."""
    for i in range(99):
        yield f"var x{i} -1000 1000"
    terms = " ".join(f"(* {i + 2} x{i})" for i in range(99))
    for _ in range(nodes // 100):
        yield f"require (<= (+ {terms}) 1000000)"


def weighed(count):
    """So many tasks, each with a value of a sum, a reward, a penalty, a preference and an interest."""
    yield "sum cost"
    for i in range(count):
        yield f"task {short_name(i)}"
    for i in range(count):
        name, other = short_name(i), short_name((i * 7 + 1) % count)
        yield f"value cost {name} {i % 1_000}"
        yield f"reward {name} {i % 7}"
        yield f"penalty {name} {i % 11}"
        yield f"prefer {name} {other}"
        yield f"interest {name}"
    yield "objective min weight"
    yield "objective min unsat_prefs"
    yield "objective max cost"


def counted(count):
    """Half as many goals as elements, each with a task and two refinements, counted by every quantity."""
    half = count // 2
    for i in range(half):
        yield f"goal G{i}"
    for i in range(half):
        yield f"task T{i}"
    for i in range(half):
        yield f"refine R{i} G{i} : T{i}"
        yield f"refine S{i} G{i} : T{(i * 7 + 1) % half}"
    yield "sum cost"
    for i in range(half):
        yield f"value cost T{i} {i % 1_000}"
        yield f"penalty T{i} {i % 11}"
        yield f"prefer T{i} G{i}"
    for quantity in ("weight", "unsat_prefs", "unsat_reqs", "sat_tasks", "familiarity", "effort", "cost"):
        yield f"objective min {quantity}"


def many_sums(count):
    """As many sums as tasks, each with the value of one task."""
    for i in range(count):
        yield f"task {short_name(i)}"
    for i in range(count):
        yield f"sum s{i}"
    for i in range(count):
        yield f"value s{i} {short_name(i)} {1 + i % 1_000}"


def earlier(count):
    """An earlier realization that knows every second task of `counted`."""
    for i in range(0, count // 2, 2):
        yield f"T{i} {'true' if i % 4 else 'false'}"


class Draws:
    """Numbers from 1 to 100, by the generator that the program's own `trial` uses."""

    def __init__(self, seed):
        self.mask = (1 << 64) - 1
        self.increment = 3
        self.state = (seed + self.increment) & self.mask
        self.step()

    def step(self):
        self.state = (self.state * 6364136223846793005 + self.increment) & self.mask

    def draw(self):
        state = self.state
        self.step()
        word = (((state >> 18) ^ state) >> 27) & 0xFFFFFFFF
        turn = state >> 59
        word = ((word >> turn) | (word << (-turn & 31))) & 0xFFFFFFFF
        return 1 + word % 100


def generated(n):
    """Goals with two ways each; the first eight ways have costs, the others cost nothing one way."""
    draws = Draws(n)
    costs = []
    for i in range(1, n + 1):
        first = draws.draw() if i <= 8 else 0
        costs.append((first, draws.draw()))
    for i in range(1, n + 1):
        yield f"goal G{i} must"
        yield f"task B{i}"
        yield f"task A{i}"
        yield f"refine R{i} G{i} : A{i}"
        yield f"refine S{i} G{i} : B{i}"
    yield "sum cost"
    for i, (first, second) in enumerate(costs, 1):
        yield f"value cost A{i} {first}"
        yield f"value cost B{i} {second}"
    for i in range(9, n):
        yield f"contrib B{i} B{i + 1}"
    yield "require (<= cost 800)"
    yield "objective min cost"


def scheduler(goals, number):
    """Goals under one root, each with two or three ways of one or two tasks."""
    dice = random.Random(goals * 100 + number)
    yield "goal Root must"
    for g in range(goals):
        yield f"goal G{g}"
    ways = {g: dice.choice((2, 3)) for g in range(goals)}
    tasks = [(g, w) for g in range(goals) for w in range(ways[g])]
    for g, w in tasks:
        yield f"task T{g}_{w}"
    for q in range(3):
        yield f"goal Quality{q}"
    yield "refine All Root : " + " ".join(f"G{g}" for g in range(goals))
    for g, w in tasks:
        yield f"refine R{g}_{w} G{g} : T{g}_{w}"
    yield "sum cost"
    yield "sum time"
    for _ in range(goals // 2):
        (g, w), (h, v) = dice.sample(tasks, 2)
        if g != h:
            yield f"conflict T{g}_{w} T{h}_{v}"
    for _ in range(goals // 4):
        (g, w), (h, v) = dice.sample(tasks, 2)
        if g != h:
            yield f"contrib T{g}_{w} T{h}_{v}"
    yield "bind R0_0 R1_0"
    for g, w in tasks:
        yield f"value cost T{g}_{w} {dice.randint(1, 100)}"
        yield f"value time T{g}_{w} {dice.randint(1, 20)}"
    for q in range(3):
        yield f"reward Quality{q} {dice.randint(5, 30)}"
    yield f"pre+ Quality0 (<= cost {40 * goals})"
    yield f"pre+ Quality1 (<= time {9 * goals})"
    yield "pre+ Quality2 (and T0_0 T1_0)"
    for quantity in ("weight", "time", "cost")[: 1 + number % 3]:
        yield f"objective min {quantity}"


def solved_models():
    """The models that bench/solving and bench/checking run on: kind, size and lines of each."""
    for size in (20, 200, 2_000):
        yield "generated", size, generated(size)
    for size in (10, 20, 40):
        for number in range(5):
            yield "scheduler", size, scheduler(size, number)


def write_text(path, header, lines):
    """Writes a text of these lines, and answers its count of bytes."""
    with open(path, "w") as file:
        file.write(f"{header}\n")
        file.writelines(f"{line}\n" for line in lines)
    return os.path.getsize(path)


def counts(path):
    """How many entries a certificate has, and how many of them are lemmas: one for each conflict."""
    entries = lemmas = 0
    with open(path) as file:
        next(file, None)
        for line in file:
            entries += 1
            lemmas += line.startswith("lemma ")
    return entries, lemmas


def run(program, words, output=os.devnull, most=None):
    """Runs the program, and answers processor seconds, peak memory in bytes and the exit status.

    What it prints goes to the file `output`. After `most` seconds of processor time it is ended by a signal,
    which the status tells as a negative number.
    """
    child = os.fork()
    if child == 0:
        os.dup2(os.open(output, os.O_WRONLY | os.O_CREAT | os.O_TRUNC, 0o644), 1)
        if most:
            resource.setrlimit(resource.RLIMIT_CPU, (most, most + 1))
        os.execv(program, [program, *words])
    _, status, usage = os.wait4(child, 0)
    return usage.ru_utime + usage.ru_stime, usage.ru_maxrss * 1024, os.waitstatus_to_exitcode(status)


def printed(program, words):
    """What the program prints."""
    return subprocess.run([program, *words], stdout=subprocess.PIPE, check=False).stdout.decode()


def shortest(program, words, repeats=5):
    """The shortest of some runs."""
    return min(run(program, words) for _ in range(repeats))


def program_of(words):
    """The program that is named, or the one of the last build."""
    program = words[1] if len(words) > 1 else "crates/cgm/out/cgm"
    if not os.path.exists(program):
        raise SystemExit(f"{program} isn't there: build it first, by `rt ci` at the top or `rt run` in crates/cgm")
    return program
