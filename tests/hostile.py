"""The parts of hostile use that `tests/program` runs behind its rows: those of each command's own module, and a small part of what
`tests/fuzz` and `tests/faults` try.
"""
import cut_texts
import drawings
import faulty.calls
import faulty.limits
import faulty.streams
import link_algebra
import logs
import reduced_tables
from drawn.fuzzer import Fuzzer
from shared.running import Child, unknown_commands

INPUTS, SHARES = 3_000, 12
SEED = "the gate"
KNOWN = "no command is left out"


def drawn_inputs(program, numbers):
    """Words and inputs that are drawn at random, as the plain readings answer them."""
    fuzzer = Fuzzer(program, SEED)
    for number in numbers:
        yield "drawn inputs: input drawn at random", fuzzer.fault_of(number)


def named(name, cases):
    """What gives these cases, with the name before that of each."""
    return lambda: ((f"{name}: {case}", fault) for case, fault in cases())


def parts(program, word=""):
    """The parts of these tests: a name, and what gives the name of each case and what is wrong with it, if anything is."""
    yield KNOWN, lambda: [(KNOWN, ", ".join(unknown_commands(program)) or None)]
    for module in (cut_texts, drawings, link_algebra, reduced_tables, logs):
        yield from module.parts(program, word)
    for share in range(SHARES):
        yield f"drawn inputs, share {share}", lambda numbers=range(share, INPUTS, SHARES): drawn_inputs(program, numbers)
    yield "calls", named("calls", lambda: faulty.calls.few(program))
    yield "streams", named("streams", lambda: faulty.streams.few(program, Child(program).run))
    yield "limits", named("limits", lambda: faulty.limits.few(program))


def timed_parts(program, word=""):
    """The parts that measure time, and are to run alone. (What a drawn refusal takes is held to hundreds of times what it usually is.)"""
    return logs.timed_parts(program, word)
