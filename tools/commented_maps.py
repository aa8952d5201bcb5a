"""For tools/fuzz-edited: register maps in text and in items, made with a record of what each comment belongs to, the cutter that
takes a text apart again, and the edits of a script. It shares no code with the program.
"""

import pickle
import random
import re

# ---- Words and statements of a text.

WORD = re.compile(
    r"""(?P<blank>[ \t\n\v\f\r]+)|(?P<comment>//[^\n]*|/\*.*?\*/)|(?P<string>"(?:\\.|[^"\\])*")"""
    r"""|(?P<word>[0-9]+'[bBdDhH][0-9a-fA-F_]+|0[xX][0-9a-fA-F][0-9a-fA-F_]*|[0-9][0-9_]*|[A-Za-z_][A-Za-z_0-9]*|\+=|%=|->|[{}\[\]:;,.=@])""",
    re.S,
)
KINDS = ("addrmap", "regfile", "reg", "field")
OUTSIDE = ("external", "internal")


def cut(text):
    """Pieces (sort, text, begin) of the text; the sorts are blank, comment, string and word."""
    pieces, at = [], 0
    while at < len(text):
        found = WORD.match(text, at)
        if not found:
            raise ValueError(f"no word at {at}: {text[at:at + 20]!r}")
        pieces.append((found.lastgroup, found[0], at))
        at = found.end()
    return pieces


class Cut:
    """A statement as it stands in a text: its words, what stands before and behind them, and the statements inside."""

    def __init__(self):
        self.words, self.gap, self.inside, self.head, self.last = [], [], None, [], []
        self.float, self.lead, self.trail, self.within = [], [], [], []
        self.begin = self.end = 0


def statements(pieces, at, closing):
    """The statements from this piece on, up to a `}` or the end; then the pieces behind the last; then where it ends."""
    found, gap = [], []
    while at < len(pieces):
        sort, word, begin = pieces[at]
        if sort in ("blank", "comment"):
            gap.append(pieces[at])
            at += 1
        elif word == "}" and sort == "word":
            break
        else:
            statement = Cut()
            statement.gap, gap, statement.begin = gap, [], begin
            while True:
                sort, word, begin = pieces[at]
                if sort == "comment":
                    statement.within.append(word)
                elif sort != "blank":
                    statement.words.append(word)
                at += 1
                if sort == "word" and word == "{":
                    statement.inside, statement.last, at = statements(pieces, at, True)
                    statement.words.append("}")
                    statement.close = pieces[at][2]
                    at += 1
                elif sort == "word" and word == ";":
                    break
            statement.end = begin + 1
            found.append(statement)
    return (found, gap, at) if closing else (found, gap)


def first_line(gap):
    """The pieces up to and with the first line feed outside comments, and the others; None where there is no line feed."""
    for number, (sort, text, begin) in enumerate(gap):
        if sort == "blank" and "\n" in text:
            end = text.index("\n") + 1
            rest = [(sort, text[end:], begin + end)] if text[end:] else []
            return [*gap[:number], (sort, text[:end], begin)], [*rest, *gap[number + 1:]]
    return None


def float_and_lead(gap, is_line_start):
    """What stands up to and with the last blank line, and what stands behind it."""
    text = "".join(piece if sort == "blank" else "x" * len(piece) for sort, piece, _ in gap)
    cut_at = 0
    for start in ([0] if is_line_start else []) + [number + 1 for number, it in enumerate(text) if it == "\n"]:
        end = text.find("\n", start)
        if end >= 0 and not text[start:end].strip():
            cut_at = end + 1
    before, behind, at = [], [], 0
    for sort, piece, begin in gap:
        here = min(max(cut_at - at, 0), len(piece))
        if piece[:here]:
            before.append((sort, piece[:here], begin))
        if piece[here:]:
            behind.append((sort, piece[here:], begin + here))
        at += len(piece)
    return before, behind


def part_gaps(body, last, is_root, holder=None):
    """Sets float, lead and trail of each statement of a body, the head of its holder, and what stands last in the body."""
    for number, statement in enumerate([*body, None]):
        gap = statement.gap if statement else last
        before = body[number - 1] if number else None
        at_start = before is None and is_root
        parted = None if at_start else first_line(gap)
        own, rest, is_line_start = [], gap, at_start
        if parted:
            own, rest = parted
            is_line_start = True
        elif statement is None and not at_start:
            comments = [n for n, piece in enumerate(gap) if piece[0] == "comment"]
            end = comments[-1] + 1 if comments else 0
            own, rest = gap[:end], gap[end:]
        if before is not None:
            before.trail = own
        elif holder is not None:
            holder.head = own
        if statement:
            statement.float, statement.lead = float_and_lead(rest, is_line_start)
            if statement.inside is not None:
                part_gaps(statement.inside, statement.last, False, statement)
                statement.last = statement.last_float
        elif holder is not None:
            holder.last_float = rest
        else:
            return rest
    return []


def text_cut(text):
    """The statements of a text, with the gaps parted, and what stands last in it."""
    found, last = statements(cut(text), 0, False)
    return found, part_gaps(found, last, True)


# ---- Items.


def copied(whole):
    """A copy of items and all inside them. Through pickle it takes a tenth of what `copy.deepcopy` takes."""
    return pickle.loads(pickle.dumps(whole, pickle.HIGHEST_PROTOCOL))


class Item:
    """An item of a map. `uid` says which it is, through all edits."""

    count = 0

    def __init__(self, sort, **parts):
        Item.count += 1
        self.uid, self.sort = Item.count, sort
        self.name = self.kind = self.type = self.body = self.value = self.prop = self.target = None
        self.outside, self.dims, self.range = "", [], None
        self.reset = self.address = self.stride = self.align = None
        self.is_touched = self.is_moved = False
        self.__dict__.update(parts)


def number_text(number):
    return f"0x{number:X}"


def shell_text(item):
    text = item.name + "".join(f"[{it}]" for it in item.dims)
    if item.range:
        text += f"[{item.range[0]}:{item.range[1]}]"
    for mark, part in (("=", item.reset), ("@", item.address), ("+=", item.stride), ("%=", item.align)):
        if part is not None:
            text += f" {mark} {number_text(part)}"
    return text


def map_text(items, indent=""):
    """The text that --rdl has."""
    lines = []
    for item in items:
        outside = f"{item.outside} " if item.outside else ""
        if item.sort == "define":
            lines += [f"{indent}{item.kind} {item.name} {{\n", map_text(item.body, indent + "    "), f"{indent}}};\n"]
        elif item.sort == "inst" and item.body is not None:
            lines += [f"{indent}{outside}{item.kind} {{\n", map_text(item.body, indent + "    "), f"{indent}}} {shell_text(item)};\n"]
        elif item.sort == "inst":
            lines.append(f"{indent}{outside}{item.type} {shell_text(item)};\n")
        elif item.sort == "own":
            lines.append(f"{indent}{item.prop} = {item.value};\n")
        elif item.sort == "default":
            lines.append(f"{indent}default {item.prop} = {item.value};\n")
        else:
            lines.append(f"{indent}{'.'.join(item.target)}->{item.prop} = {item.value};\n")
    return "".join(lines)


def all_items(items):
    for item in items:
        yield item
        if item.body is not None:
            yield from all_items(item.body)


class Map:
    """The items of a map, and the edits that a script makes of them. The lines are known to be accepted."""

    def __init__(self, items):
        self.items, self.undone, self.done = items, [], []

    def body(self, path):
        items = self.items
        for name in path:
            items = self.named(items, name).body
        return items

    def named(self, items, name):
        sort, own = ("define", name[1:]) if name.startswith("$") else ("inst", name)
        for item in items:
            if item.sort == sort and item.name == own:
                return item
        raise KeyError(name)

    def bodies(self, items, around):
        """Each body with those around it, the innermost first."""
        yield [items, *around]
        for item in items:
            if item.body is not None:
                yield from self.bodies(item.body, [items, *around])

    def component(self, item, scopes):
        """The body of an instance, and the bodies around it."""
        if item.body is not None:
            return item.body, scopes
        for number, scope in enumerate(scopes):
            for definition in scope:
                if definition.sort == "define" and definition.name == item.type:
                    return definition.body, scopes[number:]
        return [], scopes

    def resolved(self, target, scopes):
        """The instances that a target names."""
        found, items = [], scopes[0]
        for name in target:
            item = next((it for it in items if it.sort == "inst" and it.name == name), None)
            if item is None:
                return found
            found.append(item)
            items, around = self.component(item, scopes)
            scopes = [items, *around]
        return found

    def apply(self, line):
        if line == "undo":
            self.undone.append(self.items)
            self.items = self.done.pop()
        elif line == "redo":
            self.done.append(self.items)
            self.items = self.undone.pop()
        else:
            self.done.append(copied(self.items))
            self.undone = []
            self.edit(*line)

    def edit(self, verb, path, *operands):
        if verb in ("add", "set", "clear", "default", "nodefault", "assign", "unassign"):
            getattr(self, verb)(self.body(path), *operands)
            return
        items = self.body(path[:-1])
        getattr(self, verb)(items, self.named(items, path[-1]), *operands)

    def place(self, items, place):
        if place == ("first",):
            return 0
        if place == ("last",):
            return len(items)
        return items.index(self.named(items, place[1])) + (place[0] == "after")

    def add(self, items, place, new):
        at = self.place(items, place)
        items[at:at] = copied(new)

    def move(self, items, item, place):
        before = [it.uid for it in items]
        items.remove(item)
        items.insert(self.place(items, place), item)
        item.is_moved = item.is_moved or before != [it.uid for it in items]

    def remove(self, items, item):
        gone = {it.uid for it in all_items([item])}
        for scopes in list(self.bodies(self.items, [])):
            for other in [it for it in scopes[0] if it.sort == "dynamic"]:
                if any(it.uid in gone for it in self.resolved(other.target, scopes)):
                    scopes[0][:] = [it for it in scopes[0] if it is not other]
        items[:] = [it for it in items if it is not item]

    def rename(self, items, item, name):
        renamed = []
        for scopes in self.bodies(self.items, []):
            for other in scopes[0]:
                if other.sort == "dynamic":
                    for number, it in enumerate(self.resolved(other.target, scopes)):
                        if it.uid == item.uid:
                            renamed.append((other, number))
        if item.sort == "define":
            for other in all_items(self.items):
                if other.type == item.name:
                    other.type, other.is_touched = name, True
        else:
            for other, number in renamed:
                other.target[number], other.is_touched = name, True
        item.name, item.is_touched = name, True

    def number(self, items, item, number, part):
        setattr(item, part, number)
        item.is_touched = True

    def resize(self, items, item, dims):
        item.dims, item.range, item.is_touched = list(dims), None, True

    def bits(self, items, item, bits):
        item.dims, item.range, item.is_touched = [], bits, True

    def assign_in(self, items, sort, new):
        for item in items:
            if item.sort == sort and item.prop == new.prop and item.target == new.target:
                item.value, item.is_touched = new.value, True
                return
        if sort == "dynamic":
            items.append(new)
            return
        at = max((number + 1 for number, it in enumerate(items) if it.sort == sort), default=0)
        items.insert(at, new)

    def drop_from(self, items, sort, prop, target=None):
        items[:] = [it for it in items if not (it.sort == sort and it.prop == prop and it.target == target)]

    def set(self, items, prop, value):
        self.assign_in(items, "own", Item("own", prop=prop, value=value))

    def default(self, items, prop, value):
        self.assign_in(items, "default", Item("default", prop=prop, value=value))

    def assign(self, items, target, prop, value):
        self.assign_in(items, "dynamic", Item("dynamic", prop=prop, value=value, target=list(target)))

    def clear(self, items, prop):
        self.drop_from(items, "own", prop)

    def nodefault(self, items, prop):
        self.drop_from(items, "default", prop)

    def unassign(self, items, target, prop):
        self.drop_from(items, "dynamic", prop, list(target))


# ---- Maps that are made, with the record of their comments.

FIELD_PROPS = {"sw": ["r", "rw", "w"], "hw": ["r", "rw", "w"], "swmod": None, "swacc": None, "anded": None, "donttest": None}
TEXT_PROPS = ("name", "desc")
DEFAULTS = {"sw": ["r", "rw"], "hw": ["r", "rw"], "swmod": None, "swacc": None}
SUBKINDS = {"addrmap": ("reg", "reg", "regfile"), "regfile": ("reg",), "reg": ("field",)}


class Source:
    """A statement of the map that is made: its items, once for each copy of the body in which it stands, and its text."""

    def __init__(self, copies):
        self.copies, self.inside, self.words = copies, None, ""

    def uids(self):
        return [[it.uid for it in items] for items in self.copies]


class Maker:
    """Makes a map: `text`, `items`, and `records`, which has for each comment its role and what it belongs to, for each copy:
    the numbers of items of its statement, or of the items in whose body it stands, None for those of the root."""

    def __init__(self, seed):
        self.draw = random.Random(seed)
        self.names, self.comments, self.records, self.address = 0, 0, {}, 0x1000
        self.eol = self.draw.choice(("\n", "\n", "\r\n"))
        self.unit = self.draw.choice(("    ", "  ", "\t"))
        self.items, self.types = [], {"field": [], "reg": [], "regfile": []}
        self.text = self.root()

    def chance(self, part):
        return self.draw.random() < part

    def name(self, letter):
        self.names += 1
        return f"{letter}{self.names}"

    def comment(self, role, owners, form=None):
        """A new comment; one that begins with `//` wants a line end behind it."""
        self.comments += 1
        form = form or self.draw.choice(("//", "//", "/*", "/**"))
        text = f"// c{self.comments}" if form == "//" else f"/* c{self.comments} */" if form == "/*" else f"/* c{self.comments}{self.eol} *  more */"
        self.records[text.rstrip()] = (role, owners)
        return text

    def number(self, number):
        """A number in one of its spellings."""
        bits = max(number.bit_length(), 1)
        return self.draw.choice((str(number), f"0x{number:x}", f"0x{number:X}", f"{bits + 2}'h{number:X}", f"{bits}'d{number}", f"{bits}'b{number:b}", f"0X{number:04x}"))

    def value(self, prop, words):
        """A value of a property: its spelling, and how --rdl spells it."""
        if prop in TEXT_PROPS:
            text = self.draw.choice(('"a b"', '"// no"', '"/* no */"', '"{ ; }"', '"x"', f'"{self.names}"'))
            return text, text
        if words:
            word = self.draw.choice(words)
            return word, word
        word = self.draw.choice(("true", "false", "true", "1"))
        return word, word

    # -- What a body has.

    def body(self, kind, copies, bodies, depth):
        """Fills the bodies, one for each copy, and gives the statements."""
        sources, props, defaults, bit, instances = [], set(), set(), 0, []
        count = self.draw.choice((0, 1, 1, 2, 3, 4)) if kind != "addrmap" else self.draw.randint(2, 6)
        for number in range(count + 1):
            turn = self.draw.random()
            if number == count:
                # a register file or an address map holds an instance
                if kind in ("field", "reg") or instances:
                    break
                found, bit = self.instances(kind, copies, depth, bit)
            elif kind == "field" or turn < 0.2:
                found = self.own(kind, copies, props)
            elif turn < 0.3:
                found = self.default(copies, defaults)
            elif turn < 0.4 and instances and kind in ("addrmap", "regfile"):
                found = self.dynamic(copies, self.draw.choice(instances), props)
            elif turn < 0.5 and kind == "addrmap":
                found = self.define("reg", copies, depth + 1)
            else:
                found, bit = self.instances(kind, copies, depth, bit)
                if found:
                    instances += [it for it in found.copies[0] if it.sort == "inst"]
            if found:
                sources.append(found)
                for body, items in zip(bodies, found.copies):
                    body.extend(items)
        return sources

    def unused(self, props, taken):
        """One of these properties, which is taken then; none if the one that is drawn was taken before."""
        prop = self.draw.choice(sorted(props))
        if prop in taken:
            return None
        taken.add(prop)
        return prop

    def own(self, kind, copies, props):
        pool = {**(FIELD_PROPS if kind == "field" else {}), **dict.fromkeys(TEXT_PROPS)}
        prop = self.unused(pool, props)
        if prop is None:
            return None
        spelled, value = self.value(prop, pool[prop])
        source = Source([[Item("own", prop=prop, value=value)] for _ in range(copies)])
        bare = value == "true" and self.chance(0.5)
        source.parts = [prop] if bare else [prop, "=", spelled]
        return source

    def default(self, copies, defaults):
        prop = self.unused(DEFAULTS, defaults)
        if prop is None:
            return None
        spelled, value = self.value(prop, DEFAULTS[prop])
        source = Source([[Item("default", prop=prop, value=value)] for _ in range(copies)])
        source.parts = ["default", prop, "=", spelled]
        return source

    def dynamic(self, copies, instance, props):
        """An assignment to an instance of the body, or to a field in it."""
        target = [instance.name]
        inside = instance.body if instance.body is not None else next((it.body for it in self.all_types if it.name == instance.type), [])
        fields = [it for it in inside if it.sort == "inst"]
        if fields and self.chance(0.7):
            target.append(self.draw.choice(fields).name)
        if (*target, "desc") in props:
            return None
        props.add((*target, "desc"))
        spelled, value = self.value("desc", None)
        source = Source([[Item("dynamic", prop="desc", value=value, target=list(target))] for _ in range(copies)])
        source.parts = [*".".join(target).replace(".", " . ").split(), "->", "desc", "=", spelled]
        return source

    def define(self, kind, copies, depth, is_root=False):
        name = self.name("T")
        items = [Item("define", name=name, kind=kind, body=[]) for _ in range(copies)]
        source = Source([[it] for it in items])
        source.inside = self.body(kind, copies, [it.body for it in items], depth)
        source.parts = [kind, name, None]
        if is_root and kind in self.types:
            self.types[kind].append(items[0])
        self.all_types.append(items[0])
        return source

    def field_shell(self, shell, parts, bit):
        """Gives a field its bits, from this one on or behind the field before it, and says which bit comes next."""
        width = self.draw.randint(1, 3)
        if self.chance(0.3):
            shell["range"] = (bit + width - 1, bit)
            parts += ["[", self.number(bit + width - 1), ":", self.number(bit), "]"]
        elif width > 1 or self.chance(0.2):
            shell["dims"] = [width]
            parts += ["[", self.number(width), "]"]
        if self.chance(0.3):
            shell["reset"] = self.draw.randint(0, 1)
            parts += ["=", self.number(shell["reset"])]
        return bit + width

    def place_shell(self, shell, parts, is_placed):
        """Gives any other instance a size, an address and a stride."""
        if self.chance(0.2):
            shell["dims"] = [self.draw.randint(1, 3)]
            parts += ["[", self.number(shell["dims"][0]), "]"]
        if is_placed and self.chance(0.4):
            self.address += 0x10000
            shell["address"] = self.address
            parts += ["@", self.number(self.address)]
        if shell.get("dims") and is_placed and self.chance(0.3):
            shell["stride"] = 0x400
            parts += ["+=", self.number(0x400)]

    def shells(self, kind, sub, copies, bit):
        """The shells of one to three instances, their words, and the next bit."""
        shells, words = [], []
        for _ in range(self.draw.choice((1, 1, 1, 2, 3))):
            shell = {"name": self.name(sub[0])}
            parts = [shell["name"]]
            if sub == "field":
                bit = self.field_shell(shell, parts, bit)
            else:
                self.place_shell(shell, parts, copies == 1 and kind == "addrmap")
            shells.append(shell)
            words += [*parts, ","]
        return shells, words[:-1], bit

    def instances(self, kind, copies, depth, bit):
        """A statement with instances: of a type, of a type that it defines, or anonymous."""
        sub = self.draw.choice(SUBKINDS[kind])
        if bit > 20:
            return None, bit
        shells, names, bit = self.shells(kind, sub, copies, bit)
        outside = self.draw.choice(("external", "internal")) if sub == "reg" and self.chance(0.1) else ""
        front, late = ([outside], []) if outside else ([], [])
        types = self.types.get(sub, [])

        def made(**of):
            return [Item("inst", outside=outside, **copied(of), **copied(shell)) for shell in shells]

        if types and self.chance(0.5):
            of = self.draw.choice(types).name
            source = Source([made(type=of) for _ in range(copies)])
            source.parts = [*front, of, *names]
            return source, bit
        if self.chance(0.5):
            front, late = late, front
        if copies == 1 and self.chance(0.2):
            definition = Item("define", name=self.name("T"), kind=sub, body=[])
            source = Source([[definition, *made(type=definition.name)]])
            self.all_types.append(definition)
            source.inside = self.body(sub, 1, [definition.body], depth + 1)
            source.parts = [*front, sub, definition.name, None, *late, *names]
            return source, bit
        source = Source([made(kind=sub, body=[]) for _ in range(copies)])
        flat = [it for items in source.copies for it in items]
        source.inside = self.body(sub, len(flat), [it.body for it in flat], depth + 1)
        source.parts = [*front, sub, None, *late, *names]
        return source, bit

    # -- Its text.

    def blank(self, left, right):
        """What stands between two words."""
        tight = not (re.match(r"\w", right[:1]) and re.search(r"\w$", left)) and not (left[-1:] + right[:1] in ("->", "+=", "%=", "//", "/*"))
        tight = tight and not (left[-1:].isdigit() and right[:1] == "'")
        usual = "" if right in ",[]:.;" or left in "[:." or "->" in (left, right) else " "
        if usual == "" and not tight:
            return " "
        turn = self.draw.random()
        return usual if turn < 0.85 else ("" if tight else " ") if turn < 0.93 else "  "

    def words(self, source, indent, is_inline):
        """The words of a statement, its body and comments between them."""
        text, left = "", ""
        for part in [*source.parts, ";"]:
            if part is None:
                text += ("" if self.chance(0.05) else " ") if left else ""
                text += self.braces(source, indent, is_inline)
                left = "}"
                continue
            if left:
                gap = self.blank(left, part)
                if self.chance(0.03):
                    gap = " " + self.comment("word", source.uids(), "/*") + " "
                text += gap
            text += part
            left = part
        return text

    def braces(self, source, indent, is_inline):
        owners = [[uid] for items in source.uids() for uid in (items[:1] if source.copies[0][0].sort == "define" else items)]
        if not source.inside and self.chance(0.7):
            return "{}"
        if is_inline or self.chance(0.4) and not any(it.inside for it in source.inside):
            return self.inline(source, indent)
        deeper = indent + self.unit
        text = "{"
        if self.chance(0.15):
            text += "  " + self.comment("head", owners)
        text += self.eol + self.lines(source.inside, deeper, owners)
        return text + indent + "}"

    def inline(self, source, indent):
        text = "{ "
        for number, inner in enumerate(source.inside):
            if self.chance(0.1):
                text += self.comment("lead", inner.uids(), "/*") + " "
            text += self.words(inner, indent, True) + " "
        if source.inside and self.chance(0.1):
            text += self.comment("trail", source.inside[-1].uids(), "/*") + " "
        return text + "}"

    def comment_lines(self, role, owners, indent):
        return "".join(indent + self.comment(role, owners) + self.eol for _ in range(self.draw.choice((1, 1, 2))))

    def lines(self, sources, indent, owners):
        """The statements of a body, each on lines of its own but for some, and what stands last."""
        text, is_same_line = "", False
        for number, source in enumerate(sources):
            if not is_same_line:
                if self.chance(0.12):
                    text += (self.eol if self.chance(0.5) and text else "") + self.comment_lines("float", owners, indent) + self.eol
                elif self.chance(0.2) and text:
                    text += self.eol
                if self.chance(0.25):
                    text += self.comment_lines("lead", source.uids(), indent)
                text += indent
            if self.chance(0.06):
                text += self.comment("lead", source.uids(), "/*") + " "
            text += self.words(source, indent, False)
            is_same_line = number + 1 < len(sources) and self.chance(0.05)
            if is_same_line:
                text += " "
                continue
            if self.chance(0.25):
                text += self.draw.choice((" ", "   ", "\t")) + self.comment("trail", source.uids())
            text += self.eol
        if self.chance(0.12):
            text += (self.eol if self.chance(0.5) and text else "") + self.comment_lines("float", owners, indent)
        return text

    def root(self):
        self.all_types, sources = [], []
        kinds = self.draw.choices(("field", "reg", "reg", "regfile"), k=self.draw.randint(0, 4)) + ["addrmap"] * self.draw.choice((1, 1, 2))
        defaults = set()
        for kind in kinds:
            if self.chance(0.1):
                found = self.default(1, defaults)
                if found:
                    sources.append(found)
            sources.append(self.define(kind, 1, 0, True))
        for source in sources:
            self.items += source.copies[0]
        self.sources = sources
        text = ""
        if self.chance(0.5):
            text = self.comment("float", None) + self.eol + self.eol
        text += self.lines(sources, "", None)
        if self.chance(0.1):
            text = text.rstrip("\r\n")
        return text
