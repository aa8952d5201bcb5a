#!/usr/bin/env python3
"""rows.py YARDSTICK [--runs N] [--only NAME,..] NAME=CMD ..: seconds of the processor that each editor takes for the large inputs of
YARDSTICK/bench.py and for sessions, the least of N runs (5) by turns. Messages, maps, headers and statuses must be equal."""
import os, shlex, subprocess, sys, tempfile

sys.path.insert(0, sys.argv.pop(1))
import bench


def chip_assigned():
    """The chip, with 20 assignments at its top that reach into its blocks, and 200 resets in single blocks."""
    text = bench.chip_map()
    ends = "".join("  b%d.bank%d.r%d.enable->reset = 1;\n" % (i, i % 10, i % 20 // 4 * 4 + 1) for i in range(20))
    text = text[:text.rindex("};")] + ends + "};\n"
    return text, "".join("reset /$Block%d/s%d/level %d\n" % (i % 40, i % 40 * 5, i % 256) for i in range(200)), 0


def session(kind, registers=2000, steps=2000):
    m = "addrmap top {\n" + "".join("reg { field {} a; field {} b[2]; field {} c = 1; } i%d;\n" % i for i in range(registers)) + "};\n"
    shell = lambda address, text: "back 1\nshell %s %d\n%s" % (address, len(text), text)
    a, b = shell("0.%d.0" % (registers - 1), "T a[9:9];\n"), shell("0.%d.0" % (registers - 1), "T a;\n")
    if kind == "shift":
        a = b = "back 1\nshift 0.%d 0\n" % (registers - 1)
    if kind == "addr":
        a, b = shell("0.%d" % (registers - 1), "T i%d @ 0x800000;\n" % (registers - 1)), shell("0.%d" % (registers - 1), "T i%d;\n" % (registers - 1))
    if kind == "name":
        a, b = "back 1\nname 0 top2\n", "back 1\nname 0 top\n"
    return "regedit session 1\nmap %d\n%sundo %d\n%sredo 0\nend\n" % (len(m), m, steps, (a + b) * (steps // 2)), "", None


INPUTS = {f.__name__: f for f in bench.INPUTS}
INPUTS["chip_assigned"] = chip_assigned
for _kind in ("bits", "shift", "addr", "name"):
    INPUTS["session_" + _kind] = lambda kind=_kind: session(kind)


def once(command, folder, files):
    out = [folder + "/rdl", folder + "/header"]
    for f in out:
        if os.path.exists(f):
            os.unlink(f)
    with open(folder + "/said", "wb") as said:
        child = subprocess.Popen(shlex.split(command) + files + ["--rdl", out[0], "--header", out[1]], stdin=subprocess.DEVNULL, stdout=said, stderr=subprocess.DEVNULL)
        _, status, used = os.wait4(child.pid, 0)
    answer = [os.waitstatus_to_exitcode(status)] + [open(f, "rb").read() if os.path.exists(f) else None for f in [folder + "/said"] + out]
    return used.ru_utime + used.ru_stime, answer


def main():
    args = sys.argv[1:]
    runs, only = 5, None
    while args and args[0].startswith("--"):
        if args[0] == "--runs":
            runs = int(args[1])
        else:
            only = args[1].split(",")
        args = args[2:]
    programs = [it.split("=", 1) for it in args]
    with tempfile.TemporaryDirectory() as folder:
        for name, make in INPUTS.items():
            if only and name not in only:
                continue
            files = [folder + "/map", folder + "/script"]
            for path, text in zip(files, make()[:2]):
                with open(path, "w", newline="") as f:
                    f.write(text)
            best, answers = {}, {}
            for _ in range(runs):
                for who, command in programs:
                    if name.startswith("session") and who == "plain":
                        continue
                    seconds, answers[who] = once(command, folder, files)
                    best[who] = min(best.get(who, 1e9), seconds)
            same = len({tuple(it) for it in answers.values()}) == 1
            print("%-14s %s%s" % (name, "  ".join("%s %.3f" % it for it in best.items()), "" if same else "  THE ANSWERS DIFFER"), flush=True)


if __name__ == "__main__":
    main()
