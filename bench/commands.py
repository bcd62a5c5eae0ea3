"""Times programs on the inputs of a folder; called by bench/commands.sh.

    python3 commands.py FOLDER PROGRAM [OTHER]
"""
import os
import re
import statistics
import subprocess
import sys
import time

ROUNDS = int(os.environ.get("ROUNDS", "9"))
COMMANDS = os.environ.get("COMMANDS", "one,sim 0 0,run 1,run 2,run 4").split(",")
DIRTY = [it for it in os.environ.get("DIRTY", "dirty 1 4,dirty 1000 4").split(",") if it]
INPUTS = os.environ.get("INPUTS", "make400 maps pages writes uses.trace acks.trace").split()
COUNTS = os.environ.get("COUNT", "") not in ("", "0")
# A `rep` instruction would be counted once a byte: the C library clears and copies in loops in its place.
LOOPS = "glibc.cpu.x86_rep_stosb_threshold=4000000000:glibc.cpu.x86_rep_movsb_threshold=4000000000"


def ran(words, source, target):
    """Wall and processor milliseconds of one run, which has to end with status 0."""
    opens = [(os.POSIX_SPAWN_OPEN, 0, source, os.O_RDONLY, 0),
             (os.POSIX_SPAWN_OPEN, 1, target, os.O_WRONLY | os.O_CREAT | os.O_TRUNC, 0o644)]
    began = time.perf_counter()
    _, status, use = os.wait4(os.posix_spawn(words[0], words, os.environ, file_actions=opens), 0)
    wall = time.perf_counter() - began
    if status != 0:
        sys.exit(f"{' '.join(words)} on {os.path.basename(source)}: status {os.waitstatus_to_exitcode(status)}")
    return 1000 * wall, 1000 * (use.ru_utime + use.ru_stime)


def instructions(words, source):
    """How many instructions one run takes, of all its threads."""
    with open(source, "rb") as script:
        done = subprocess.run(["valgrind", "--tool=callgrind", "--callgrind-out-file=/dev/null", *words], stdin=script,
                              stdout=subprocess.DEVNULL, stderr=subprocess.PIPE, check=True,
                              env={**os.environ, "GLIBC_TUNABLES": LOOPS})
    return int(re.search(rb"Collected : (\d+)", done.stderr).group(1))


def judged(program, source, report):
    """What `check` says of the report of a run, since runs may differ."""
    with open(source, "rb") as script:
        both = script.read() + b"report\n" + report
    return subprocess.run([program, "check"], input=both, stdout=subprocess.PIPE, check=False).stdout[:40].decode().strip()


def commands_for(name):
    """What is timed on an input: a trace is no script, and pages are asked for where many are written."""
    if name.endswith(".trace"):
        return ["trace"]
    return COMMANDS + (DIRTY if name in ("make400", "writes") else [])


def text(path):
    with open(path, "rb") as file:
        return file.read()


def timed(folder, source, command, programs):
    """Least and median wall, least and median processor time of each program, and whether the texts agree."""
    found = [[] for _ in programs]
    targets = [os.path.join(folder, f"text{it}") for it, _ in enumerate(programs)]
    # The programs take turns, so that all meet the same state of the machine.
    for _ in range(ROUNDS):
        for it, program in enumerate(programs):
            found[it].append(ran([program, *command.split()], source, targets[it]))
    texts = [text(it) for it in targets]
    verdicts = set()
    if command.startswith("run"):
        verdicts = {judged(programs[0], source, it) for it in texts}
    elif len(set(texts)) > 1:
        verdicts = {"texts differ"}
    rows = [[least(part) for least in (min, statistics.median) for part in zip(*runs)] for runs in found]
    return rows, ", ".join(sorted(verdicts - {"legal"}))


def table(folder, programs):
    names = ["PROGRAM", "OTHER"][:len(programs)]
    columns = ("wall least", "median", "cpu least", "median")
    heads = ["Input", "Command"] + [f"{name} {column}" for name in names for column in columns]
    print("| " + " | ".join(heads + ["wall ratio", "cpu ratio"] * (len(programs) > 1)) + " |")
    print("|" + "---|" * (len(heads) + 2 * (len(programs) > 1)))
    bad = 0
    for name in INPUTS:
        for command in commands_for(name):
            rows, wrong = timed(folder, os.path.join(folder, name), command, programs)
            cells = [f"{row[it]:.1f}" for row in rows for it in (0, 2, 1, 3)]
            if len(rows) > 1:
                cells += [f"{rows[0][it] / max(rows[1][it], 1e-3):.2f}" for it in (0, 1)]
            print(f"| {name} | `{command}` | " + " | ".join(cells) + " |" + (f" {wrong}" if wrong else ""), flush=True)
            bad |= bool(wrong)
    return bad


def counts(folder, programs):
    print("| Input | Command | PROGRAM | " + "OTHER | Ratio |" * (len(programs) > 1))
    print("|---|---|---|" + "---|---|" * (len(programs) > 1))
    for name in INPUTS:
        for command in commands_for(name):
            got = [instructions([it, *command.split()], os.path.join(folder, name)) for it in programs]
            cells = [f"{it:,}" for it in got] + [f"{got[0] / it:.2f}" for it in got[1:]]
            print(f"| {name} | `{command}` | " + " | ".join(cells) + " |", flush=True)
    return 0


def main(folder, *programs):
    programs = [os.path.abspath(it) for it in programs]
    if COUNTS:
        return counts(folder, programs)
    print(f"milliseconds of {ROUNDS} runs each, on {os.cpu_count()} processors, load {os.getloadavg()[0]:.1f}")
    return table(folder, programs)


if __name__ == "__main__":
    sys.exit(main(*sys.argv[1:]))
