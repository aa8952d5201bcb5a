#!/usr/bin/env python3
"""storms.py --a CMD --b CMD [--runs N] [--seed N] [--sessions] [--keep FOLDER]

Makes small register maps and storms of edits, undos and redos, and runs both editors on each: `MAP SCRIPT --rdl OUT --header OUT` is
appended to CMD. Messages, map, header and status must be equal. Run N is made from the seed and N alone. With --sessions the two
editors also write a session in the middle, damage it in one number now and then, and go on from it (both must know --session).
The status is 1 where something differs.
"""
import argparse, os, random, shlex, shutil, subprocess, sys, tempfile

KINDS = ["field", "reg", "regfile", "addrmap"]
HOLDS = {None: [], "addrmap": ["reg", "regfile", "addrmap"], "regfile": ["reg", "regfile"], "reg": ["field"], "field": []}
DEFINES = {None: KINDS, "addrmap": KINDS, "regfile": ["field", "reg", "regfile"], "reg": ["field"], "field": []}
NAMES = list("abcdefgh")
TYPES = ["T", "U", "V", "W", "X", "Y"]


class Map:
    """A random text, and the paths that lead through it."""

    def __init__(self, draw):
        self.draw = draw
        self.paths = []       # (path, sort, kind)
        self.dynamics = []    # (path of a body, target, property)
        self.defaults = []    # (path of a body, property)
        self.room = draw.choice([6, 15, 40, 80])

    def value(self, p):
        d = self.draw
        if p == "regwidth":
            return d.choice(["32", "32", "32", "16", "64", "8"])
        if p == "accesswidth":
            return d.choice(["8", "16", "32", "8", "64"])
        if p == "fieldwidth":
            return d.choice(["1", "1", "2", "3", "8"])
        if p == "alignment":
            return d.choice(["1", "2", "4", "8", "16", "64"])
        if p == "addressing":
            return d.choice(["compact", "regalign", "fullalign"])
        if p == "sw":
            return d.choice(["rw", "r", "w", "na", "w1", "rw1"])
        if p == "reset":
            return d.choice(["0", "1", "1", "2", "3", "9", "200"])
        if p == "desc" or p == "name":
            return '"%s"' % d.choice(["x", "yy", ""])
        return d.choice(["true", "false", "1", "0"])

    PROPS = {"field": ["sw", "reset", "fieldwidth", "desc", "swmod", "rclr", "rset"], "reg": ["regwidth", "accesswidth", "desc", "shared"],
             "regfile": ["alignment", "desc", "name"], "addrmap": ["addressing", "alignment", "desc"],
             None: ["addressing"]}
    DEFAULTS = ["sw", "reset", "fieldwidth", "regwidth", "accesswidth", "alignment", "addressing", "desc", "hw"]

    def parts(self, kind):
        d = self.draw
        if kind == "field":
            r = d.random()
            out = ""
            if r < 0.25:
                out = "[%d]" % d.choice([1, 2, 3, 4, 8])
            elif r < 0.4:
                low = d.choice([0, 1, 2, 4, 8, 12, 16])
                out = "[%d:%d]" % (low + d.choice([0, 1, 3, 7]), low)
            if d.random() < 0.25:
                out += " = %s" % d.choice(["0", "1", "1", "2", "3"])
            return out
        r = d.random()
        out = ""
        if r < 0.2:
            out += "[%d]" % d.choice([1, 2, 3, 5])
            if d.random() < 0.15:
                out += "[2]"
        q = d.random()
        if q < 0.12:
            out += " @ 0x%X" % d.choice([0, 4, 8, 0x10, 0x20, 0x40, 0x100, 0x200, 0x1000])
        if r < 0.2 and d.random() < 0.2:
            out += " += %d" % d.choice([4, 8, 16, 64])
        if 0.12 <= q < 0.18:
            out += " %%= %d" % d.choice([4, 8, 32])
        return out

    def component(self, kind, path, scope, level):
        """The text between braces, and the instances: (name, kind, instances)."""
        d = self.draw
        out, instances, own, defaulted, defined = [], [], set(), set(), set()
        scope = dict(scope)
        many = d.choice([0, 1, 2, 3, 4, 6]) if kind != "field" else d.choice([0, 0, 0, 1])
        if kind in ("regfile", "addrmap") and many == 0:
            many = 1
        names = NAMES[:]
        d.shuffle(names)
        for _ in range(many):
            r = d.random()
            if r < 0.1:
                p = d.choice(self.PROPS[kind])
                if p not in own and not (p in ("rclr", "rset") and own & {"rclr", "rset"}):
                    own.add(p)
                    out.append("%s = %s;" % (p, self.value(p)))
            elif r < 0.17 and kind != "field":
                p = d.choice(self.DEFAULTS)
                if p not in defaulted:
                    defaulted.add(p)
                    self.defaults.append((path, p))
                    out.append("default %s = %s;" % (p, self.value(p)))
            elif r < 0.3 and DEFINES[kind] and level < 5 and self.room > 0:
                n = d.choice(TYPES)
                if n not in defined:
                    defined.add(n)
                    k = d.choice(DEFINES[kind])
                    self.room -= 1
                    here = path + "/$" + n if path != "/" else "/$" + n
                    text, inner = self.component(k, here, scope, level + 1)
                    out.append("%s %s { %s };" % (k, n, text))
                    self.paths.append((here, "define", k))
                    scope[n] = (k, inner)
            elif r < 0.4 and instances and kind in ("addrmap", "regfile", "reg"):
                self.assignment(path, instances, out)
            elif HOLDS[kind] and names and self.room > 0:
                n = names.pop()
                known = [(t, k, i) for t, (k, i) in scope.items() if k in HOLDS[kind]]
                here = path + "/" + n
                if known and d.random() < 0.55:
                    t, k, inner = d.choice(known)
                    out.append("%s %s%s;" % (t, n, self.parts(k)))
                elif level < 6:
                    k = d.choice(HOLDS[kind])
                    if level > 3 and kind in ("addrmap", "regfile"):
                        k = "reg"
                    self.room -= 1
                    text, inner = self.component(k, here, scope, level + 1)
                    out.append("%s { %s } %s%s;" % (k, text, n, self.parts(k)))
                else:
                    continue
                self.paths.append((here, "instance", k))
                instances.append((n, k, inner))
        if kind in ("regfile", "addrmap") and not instances:
            n = names.pop()
            out.append("reg { field {} a; } %s;" % n)
            self.paths.append((path + "/" + n, "instance", "reg"))
            self.paths.append((path + "/" + n + "/a", "instance", "field"))
            instances.append((n, "reg", [("a", "field", [])]))
        return " ".join(out), instances

    def assignment(self, path, instances, out):
        d = self.draw
        target, here = [], instances
        while True:
            n, k, inner = d.choice(here)
            target.append(n)
            if not inner or (k != "reg" and d.random() < 0.2):
                break
            here = inner
        if k == "field":
            p = d.choice(["reset", "reset", "sw", "desc", "swmod"])
        else:
            p = d.choice(["desc", "name"])
        key = (path, ".".join(target), p)
        if key in self.dynamics:
            return
        self.dynamics.append(key)
        out.append("%s->%s = %s;" % (key[1], p, self.value(p)))

    def text(self):
        d = self.draw
        out, scope, defined, defaulted = [], {}, set(), set()
        for _ in range(d.choice([1, 2, 4, 6])):
            if d.random() < 0.15:
                p = d.choice(self.DEFAULTS)
                if p not in defaulted:
                    defaulted.add(p)
                    self.defaults.append(("/", p))
                    out.append("default %s = %s;" % (p, self.value(p)))
                continue
            n = d.choice(TYPES)
            if n in defined:
                continue
            defined.add(n)
            k = d.choice(["field", "reg", "reg", "regfile", "regfile", "addrmap"])
            text, inner = self.component(k, "/$" + n, scope, 1)
            out.append("%s %s { %s };" % (k, n, text))
            self.paths.append(("/$" + n, "define", k))
            scope[n] = (k, inner)
        self.room = max(self.room, 4)
        text, inner = self.component("addrmap", "/$top", scope, 1)
        out.append("addrmap top { %s };" % text)
        self.paths.append(("/$top", "define", "addrmap"))
        if d.random() < 0.1:
            out.append("addrmap last { top a; };")
            self.paths.append(("/$last", "define", "addrmap"))
        self.scope = scope
        return "\n".join(out) + "\n"

    def place(self, path):
        d = self.draw
        beside = [p for p, _, _ in self.paths if p.rsplit("/", 1)[0] == path.rsplit("/", 1)[0]]
        r = d.random()
        if r < 0.25:
            return "first"
        if r < 0.5 or not beside:
            return "last"
        return d.choice(["before", "after"]) + " " + d.choice(beside).rsplit("/", 1)[1]

    def place_in(self, path):
        d = self.draw
        inside = [p for p, _, _ in self.paths if p.rsplit("/", 1)[0] == path]
        if d.random() < 0.4 or not inside:
            return d.choice(["first", "last"])
        return d.choice(["before", "after"]) + " " + d.choice(inside).rsplit("/", 1)[1]

    def item(self, kind):
        d = self.draw
        n = d.choice(["n%d" % d.randrange(6)] + NAMES)
        if d.random() < 0.35:
            return "%s %s%s;" % (d.choice(TYPES), n, self.parts(d.choice(KINDS)))
        holds = HOLDS.get(kind) or ["reg"]
        k = d.choice(holds)
        self.room = 5
        sub = Map(d)
        sub.room = 5
        text, _ = sub.component(k, "/x", {}, 4)
        if d.random() < 0.3:
            t = "N%d" % d.randrange(6)
            if d.random() < 0.3:
                return "%s %s { %s } %s%s;" % (k, t, text, n, self.parts(k))
            return "%s %s { %s };" % (k, t, text)
        return "%s { %s } %s%s;" % (k, text, n, self.parts(k))

    def line(self):
        d = self.draw
        r = d.random()
        if r < 0.2:
            return "undo"
        if r < 0.27:
            return "redo"
        path, sort, kind = d.choice(self.paths)
        if d.random() < 0.12:
            path, sort, kind = d.choice([("/", "root", None), ("/$top", "define", "addrmap")])
        verb = d.choice(["bits", "reset", "set", "set", "clear", "default", "nodefault", "rename", "address", "stride", "align", "resize",
                         "add", "add", "remove", "move", "move", "assign", "assign", "unassign", "list"])
        if verb == "list":
            return "list"
        if verb == "bits":
            fields = [p for p, s, k in self.paths if k == "field" and s == "instance"] or [path]
            low = d.choice([0, 1, 3, 4, 8, 9])
            return "bits %s %s" % (d.choice(fields), d.choice(["none", "[%d:%d]" % (low + d.choice([0, 1, 4]), low)]))
        if verb == "reset":
            fields = [p for p, s, k in self.paths if k == "field" and s == "instance"] or [path]
            return "reset %s %s" % (d.choice(fields), d.choice(["none", "0", "1", "2", "7"]))
        if verb in ("set", "clear"):
            p = d.choice(self.PROPS[kind]) if d.random() < 0.95 else d.choice(self.DEFAULTS)
            return "set %s %s %s" % (path, p, self.value(p)) if verb == "set" else "clear %s %s" % (path, p)
        if verb in ("default", "nodefault"):
            if verb == "nodefault" and self.defaults and d.random() < 0.7:
                path, p = d.choice(self.defaults)
            else:
                p = d.choice(self.DEFAULTS)
            return "default %s %s %s" % (path, p, self.value(p)) if verb == "default" else "nodefault %s %s" % (path, p)
        if verb == "rename":
            return "rename %s %s" % (path, d.choice(NAMES + ["z", "Z", "T", "N1", "n2", "reg", "Q"]))
        if verb == "address":
            return "address %s %s" % (path, d.choice(["none", "0", "0x4", "0x2", "0x100", "0x1000", "0x40"]))
        if verb == "stride":
            return "stride %s %s" % (path, d.choice(["none", "4", "2", "8", "64"]))
        if verb == "align":
            return "align %s %s" % (path, d.choice(["none", "4", "8", "64"]))
        if verb == "resize":
            return "resize %s %s" % (path, d.choice(["none", "[1]", "[2]", "[3]", "[4]", "[2][2]"]))
        if verb == "add":
            return "add %s %s %s" % (path, self.place_in(path), self.item(kind))
        if verb == "remove":
            return "remove %s" % path
        if verb == "move":
            return "move %s %s" % (path, self.place(path))
        if self.dynamics and d.random() < (0.9 if verb == "unassign" else 0.4):
            path, target, p = d.choice(self.dynamics)
        else:
            below = [(q, k) for q, s, k in self.paths if q.startswith(path + "/") and "$" not in q[len(path):]]
            if below:
                q, k = d.choice(below)
                target = q[len(path) + 1:].replace("/", ".")
                p = d.choice(["reset", "reset", "sw", "desc"]) if k == "field" else d.choice(["desc", "reset"])
            else:
                target, p = d.choice(["a", "a.b", "c.a", "b.a.c"]), d.choice(["reset", "sw", "desc"])
        if verb == "assign":
            return "assign %s %s %s %s" % (path, target, p, self.value(p))
        return "unassign %s %s %s" % (path, target, p)


def run(command, folder, name, map_file, script, more=()):
    files = [os.path.join(folder, name + end) for end in (".rdl", ".h")]
    for f in files:
        if os.path.exists(f):
            os.unlink(f)
    done = subprocess.run(shlex.split(command) + [map_file, script, "--rdl", files[0], "--header", files[1], *more],
                          stdin=subprocess.DEVNULL, stdout=subprocess.PIPE, stderr=subprocess.DEVNULL, timeout=60)
    return (done.returncode, done.stdout) + tuple(open(f, "rb").read() if os.path.exists(f) else None for f in files)


def script_of(m, draw, many):
    return "".join(m.line() + "\n" for _ in range(many))


def damaged(draw, text):
    """The session with one of its numbers changed."""
    at = text.find(b"\nundo ")
    if at < 0:
        return text
    digits = [i for i in range(at, len(text)) if 48 <= text[i] <= 57]
    if not digits:
        return text
    i = draw.choice(digits)
    return text[:i] + str(draw.randrange(10)).encode() + text[i + 1:]


def accepted(draw, command, folder):
    """A map that is accepted, mostly: it is the last of a few tries."""
    empty, path = os.path.join(folder, "empty"), os.path.join(folder, "map")
    open(empty, "w").close()
    for _ in range(draw.choice([1, 8, 8, 8])):
        m = Map(draw)
        text = m.text()
        with open(path, "w") as f:
            f.write(text)
        if run(command, folder, "try", path, empty)[0] != 2:
            break
    return m, text


def main():
    p = argparse.ArgumentParser(description=__doc__, formatter_class=argparse.RawDescriptionHelpFormatter)
    p.add_argument("--a", required=True)
    p.add_argument("--b", required=True)
    p.add_argument("--runs", type=int, default=1000)
    p.add_argument("--begin", type=int, default=0)
    p.add_argument("--seed", type=int, default=1)
    p.add_argument("--lines", type=int, default=40)
    p.add_argument("--sessions", action="store_true")
    p.add_argument("--keep")
    o = p.parse_args()
    bad = refused = lines = said = 0
    with tempfile.TemporaryDirectory() as folder:
        for n in range(o.begin, o.begin + o.runs):
            draw = random.Random("%d/%d" % (o.seed, n))
            m, text = accepted(draw, o.b, folder)
            script = script_of(m, draw, draw.choice([3, 10, o.lines, o.lines]))
            for name, content in (("map", text), ("script", script)):
                with open(os.path.join(folder, name), "w") as f:
                    f.write(content)
            files = [os.path.join(folder, name) for name in ("map", "script")]
            more = [("--session", os.path.join(folder, s)) if o.sessions else () for s in ("sa", "sb")]
            got = [run(c, folder, s, *files, x) for c, s, x in ((o.a, "a", more[0]), (o.b, "b", more[1]))]
            refused += got[1][0] == 2
            lines += script.count("\n")
            said += got[1][1].count(b": X")
            wrong = got[0] != got[1]
            if o.sessions and not wrong and got[1][0] in (0, 1):
                texts = [open(x[1], "rb").read() for x in more]
                wrong = texts[0] != texts[1]
                session = damaged(draw, texts[1]) if draw.random() < 0.6 else texts[1]
                with open(os.path.join(folder, "map2"), "wb") as f:
                    f.write(session)
                with open(os.path.join(folder, "script2"), "w") as f:
                    f.write(script_of(m, draw, 20))
                more_files = [os.path.join(folder, name) for name in ("map2", "script2")]
                got = [run(c, folder, s, *more_files, x) for c, s, x in ((o.a, "a", more[0]), (o.b, "b", more[1]))]
                wrong = wrong or got[0] != got[1]
            if wrong:
                bad += 1
                print("run %d differs: status %s, %s" % (n, got[0][0], got[1][0]), flush=True)
                if o.keep:
                    to = os.path.join(o.keep, str(n))
                    shutil.rmtree(to, ignore_errors=True)
                    shutil.copytree(folder, to)
                if bad >= 20:
                    break
    print("%d runs, %d maps refused, %d lines, %d edits refused, %d runs differ" % (n + 1 - o.begin, refused, lines, said, bad))
    return 1 if bad else 0


if __name__ == "__main__":
    sys.exit(main())
