"""What gdb runs for `bench/cube.py`: it measures how long a program is in the functions that build the blocks of a cube.

The environment has its name and words, `PROGRAM` and `WORDS`, the files that it reads and that the result is written to, `GIVEN` and
`MEASURED`. It stops at each call of such a function from outside of them and where the call returns, some ten stops for a block, and
adds up the processor time in between, the system's work for them included. The time of the stops does not count. Written are the
nanoseconds, and how many calls there were of each function.
"""
import json
import os
import subprocess

import gdb

PROGRAM = os.environ["PROGRAM"]
BUILDERS = ("cube_signs::",)


def builders():
    """The functions that build, by their places in the program's file."""
    lines = subprocess.run(["nm", PROGRAM], check=True, capture_output=True, text=True).stdout.splitlines()
    symbols = (line.split(" ", 2) for line in lines if line[:1] != " ")
    return {int(place, 16): name for place, kind, name in symbols if kind in "tT" and name.startswith(BUILDERS)}


def base():
    """Where the program's file is in memory."""
    with open(f"/proc/{gdb.selected_inferior().pid}/maps", encoding="utf-8") as maps:
        return min(int(line.split("-")[0], 16) for line in maps if line.rstrip().endswith(os.path.realpath(PROGRAM)))


def processor_time():
    """The nanoseconds that the thread has run."""
    process, thread, _ = gdb.selected_thread().ptid
    with open(f"/proc/{process}/task/{thread}/schedstat", encoding="utf-8") as times:
        return int(times.read().split()[0])


def register(name):
    return int(gdb.parse_and_eval(f"(unsigned long) ${name}"))


def time_of_call():
    """Goes on to where a function that has just been called returns: the nanoseconds that it took."""
    start, top = processor_time(), register("rsp")
    back = int(gdb.parse_and_eval("*(unsigned long *) $rsp"))
    gdb.execute(f"tbreak *{back:#x} if $rsp > {top:#x}", to_string=True)
    gdb.execute("continue", to_string=True)
    return processor_time() - start


def main():
    gdb.execute("set pagination off")
    gdb.execute(f"set args {os.environ['WORDS']} < {os.environ['GIVEN']} > /dev/null")
    gdb.execute("starti", to_string=True)
    names = {base() + place: name for place, name in builders().items()}
    entries = [gdb.Breakpoint(f"*{place:#x}") for place in names]
    spent, calls = 0, {}
    gdb.execute("continue", to_string=True)
    while gdb.selected_inferior().pid:
        name = names[register("rip")]
        calls[name] = calls.get(name, 0) + 1
        for entry in entries:
            entry.enabled = False
        spent += time_of_call()
        for entry in entries:
            entry.enabled = True
        gdb.execute("continue", to_string=True)
    with open(os.environ["MEASURED"], "w", encoding="utf-8") as measured:
        json.dump({"nanoseconds": spent, "calls": calls}, measured)


main()
