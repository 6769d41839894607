"""What refusals cost: the least address space in which each command refuses an input, and its time. See `tests/faults`.

No command needs more than twice the space that `check` needs for an input that is refused, but that `verify` may hold a log four times
over; and no refusal takes more than five times as long as `true`, but those of a count of generators and of logs of a million bytes. Times
are the best of many runs, one after another and in turns with `true`. Of the blocks of a diagram one is whole in memory at a time. A
quarter of all generators are in the largest, and nearly as many in the one beside it, so two at once would add half to what a run takes.
`homology` by one worker takes so many bytes for each generator at most. The others take no more than so many times as much as it does,
though what `certify` writes is in memory, whole, beside the block that is cancelled, and so is what `verify` reads.
"""
import resource
import time

import plain.cube
import plain.diagrams as codes
from faulty.cases import LOG, Case
from faulty.limits import limited, run
from shared import known_diagrams

KB = 1024
LEAST, MOST, STEP = 1_000, 400_000, 100
TURNS = 15
MORE_SPACE, MORE_TIME, MORE_LOGS = 2, 5, 4
SIZE, LONG = 65_536, 500_000
LARGE = "a braid of 16 crossings on 4 strands"
BYTES_OF_A_GENERATOR = 120
TIMES_OF_HOMOLOGY = {"certify": 1.3, "verify": 1.3, "reduced": 0.6}

TEXTS = {
    "an empty text": b"",
    "a byte": b"\xff",
    "too many bytes": b" " * (SIZE + 1),
    "blanks": b" " * SIZE,
    "commas": b"," * SIZE,
    "a long word": b"A" * SIZE,
    "digits that are too many": b"PD[X[1,1,2," + b"9" * (SIZE - 20) + b"]]",
    "many crossings": b"PD[" + b",".join([b"X[1,1,2,2]"] * 5_900) + b"]",
    "many loops": b"PD[" + b",".join([b"Loop[1]"] * 8_000) + b"]",
    "many labels": b"GaussCode[" + b",".join([b"1"] * 32_000) + b"]",
    "many groups": b"GaussCode[" + b",".join([b"{}"] * 21_000) + b"]",
    "deep lists": b"[" * SIZE,
    "wide lists": b"[" + b",".join([b"[]"] * 21_000) + b"]",
    "many numbers": b"[" + b",".join([b"1"] * 32_000) + b"]",
    "a long text in a list": b'["' + b"a" * (SIZE - 10) + b'"]',
    "many escapes": b'["' + b"\\u0041" * 10_000 + b'"]',
    "many members": b'[{"a":' * 100 + b'"' + b"b" * 60_000 + b'"' + b"}]" * 100,
    "no interval": b"PD[X[4,1,2,3], X[3,2,1,4]]",
    "a virtual code": b"PD[X[1,2,1,2]]",
    "no planar code": b"PD[X[1,5,2,4], X[3,6,4,1], X[5,2,6,3]]",
}
SCRIPTS = {
    "too many lines": b"PD[];" + b"\n" * 60_000,
    "a wrong line behind many": b"PD[];" + b"\n" * 4_095 + b"x",
    "a long wrong line": b"PD[];" + b"x" * 65_000,
    "many words": b"PD[];" + b"x " * 32_000,
    "many semicolons": b"PD[]" + b";" * 65_000,
}
LOGS = {
    "no log": b"x",
    "a long line": b"x" * 1_000_000,
    "many lines": b"\n" * 1_000_000,
    "many digits": LOG.replace(b"cancel 0 0 0", b"cancel 0 0 " + b"1" * 1_000_000),
    "a bad diagram": b"log 1\n" + TEXTS["many crossings"] + b"\n",
    "a long diagram": LOG.replace(b"PD[", b" " * (SIZE + 1) + b"PD["),
    "rows behind the table": LOG + b"j 3 i 1 dim 1\n" * 70_000,
    "a bad table": LOG.replace(b"dim 1", b"dim 2"),
}


def cases(commands):
    """Each command with each text that it refuses."""
    for command in commands:
        words = [command, "--mark", "1"] if command == "reduced" else [command]
        if command == "bench":
            continue
        texts = LOGS if command == "verify" else {**TEXTS, **(SCRIPTS if command in ("edit", "schedule") else {})}
        yield from (Case(f"{command} of {name}", words, given) for name, given in texts.items())


def least_space(program, case, wanted):
    """The least address space, in KB, in which a run gives what it gives without a limit."""
    low, high = LEAST, MOST
    while high - low > STEP:
        middle = (low + high) // 2
        if run(program, case, limited(resource.RLIMIT_AS, middle * KB)) == wanted:
            high = middle
        else:
            low = middle
    return high


def best_times(child, true, case):
    """The best times of a case and of `true`."""
    nothing, best = Case("true", [], b""), {}
    for _ in range(TURNS):
        for one, it in ((child, case), (true, nothing)):
            started = time.perf_counter()
            one.run(it.words, it.given)
            best[one] = min(best.get(one, 1e9), time.perf_counter() - started)
    return best[child], best[true]


def answer_faults(child, commands):
    """Which answers to a large diagram take too much memory: its table, its log, which is verified, and its reduced table."""
    text = dict(known_diagrams.begun())[LARGE].encode()
    generators, given = plain.cube.generator_count(codes.read(text.decode())), {"certify": text, "reduced": text}
    table = child.run(["homology"], text)
    yield f"homology of {LARGE}, memory", memory_fault(child, table, BYTES_OF_A_GENERATOR * generators // KB)
    for command, times in TIMES_OF_HOMOLOGY.items():
        if command in commands and command in given:
            came = child.run([command, *(["--mark", "1"] if command == "reduced" else [])], given[command])
            given.setdefault("verify", came.wrote)  # (what `certify` wrote, which comes first)
            yield f"{command} of {LARGE}, memory", memory_fault(child, came, int(times * table.kilobytes))


def memory_fault(child, came, most):
    """What is wrong with an answer that is to take so many kilobytes at most, if anything is."""
    much = child.takes_more(came, most)
    return f"status {came.status}, {came.kilobytes} KB, and {most} are wanted" if came.status or much else None


def faults(program, child, true, commands):
    """The name of each refusal, and what it costs too much, if it does."""
    spaces, dearest, logs = {}, (0, None), {}
    for case in cases(commands):
        wanted = run(program, case)
        yield f"{case.name}, is refused", None if wanted[0] in (1, 6) else f"{wanted[0]}, {wanted[1][:100]!r}"
        spaces[case.name] = least_space(program, case, wanted)
        logs[case.name] = len(case.given) // KB if case.words == ["verify"] else 0
        if len(case.given) < LONG:
            took, least = best_times(child, true, case)
            dearest = max(dearest, (took / least, case.name))
            yield f"{case.name}, time", f"{took * 1000:.2f} ms, and `true` {least * 1000:.2f}" if took > MORE_TIME * least else None
    for name, space in spaces.items():
        command, _, text = name.partition(" of ")
        for_check = spaces.get(f"check of {text}") or max(it for other, it in spaces.items() if other.startswith("check of "))
        most = MORE_SPACE * for_check + MORE_LOGS * logs[name]
        yield f"{name}, space", f"{space} KB, and `check` {for_check}" if space > most else None
    yield from answer_faults(child, commands)
    print(f"refusals need {min(spaces.values())} to {max(spaces.values())} KB; the longest takes {dearest[0]:.1f} of `true`: {dearest[1]}")
