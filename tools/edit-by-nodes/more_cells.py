#!/usr/bin/env python3
"""more_cells.py YARDSTICK --a CMD [--b CMD] and the other options of YARDSTICK/matrix.py: the same measurement for shapes and edits
that it doesn't have. Those that reach every register are a default of `regwidth` or `reset` at the root."""
import sys

sys.path.insert(0, sys.argv.pop(1))
import matrix

REG, ONE = matrix.REG, matrix.EDITED % ""


def deep(n, levels):
    """The edited register so many register files deep, with its share of the others in each."""
    share = n // (levels + 1)
    text = "".join(REG % i for i in range(share)) + ONE
    for k in range(levels):
        text = "".join(REG % (share * (k + 1) + i) for i in range(share)) + "regfile { %s } d;" % text
    return "addrmap top {\n" + text + "};\n"


def wide(n, fields):
    body = " ".join("field {} f%d;" % i for i in range(fields))
    return "addrmap top {\n" + ONE + "".join("reg { %s } i%d;\n" % (body, i) for i in range(n)) + "};\n"


def shapes(n):
    regs = "".join(REG % i for i in range(n))
    inner = "".join("regfile { reg t { field {} a; field {} b[2]; }; %s } g%d;\n" % ("".join("t i%d;" % i for i in range(20)), j) for j in range(n // 20))
    blocks = "".join("addrmap B%d { reg t%d { field {} a; field {} b[2]; }; %s };\n" % (j, j, "".join("t%d i%d;" % (j, i) for i in range(20))) for j in range(n // 20))
    uses = "".join("B%d u%d;\n" % (j, j) for j in range(n // 20))
    assigns = "".join("i%d.c->reset = 0;\n" % i for i in range(n))
    arrays = "".join("reg { field {} a; field {} b[2]; } i%d[4];\n" % i for i in range(n))
    tops = "".join("addrmap m%d { %s };\n" % (j, "".join(REG % i for i in range(20))) for j in range(n // 20))
    return {
        "deep_4": deep(n, 4).replace("/$top/a", ""),
        "deep_12": deep(n, 12),
        "wide_1": wide(n, 1),
        "wide_32": wide(n // 4, 32),
        "arrays": "addrmap top {\n" + ONE + arrays + "};\n",
        "types_in_bodies": "addrmap top {\n" + ONE + inner + "};\n",
        "types_in_blocks": blocks + "addrmap top {\n" + ONE + uses + "};\n",
        "assigned": "addrmap top {\n" + ONE + regs + assigns + "};\n",
        "assigned_in": "regfile A {\n" + regs + "};\naddrmap top {\n" + ONE + " A x @ 0x100000;\n" + assigns.replace("i", "x.i", 0) + "".join("x.i%d.c->reset = 0;\n" % i for i in range(n)) + "};\n",
        "defaults_inside": "addrmap top {\n default sw = r; default desc = \"d\";\n" + ONE + "".join("regfile { default hw = r; %s } g%d;\n" % ("".join(REG % i for i in range(20)), j) for j in range(n // 20)) + "};\n",
        "tops": tops + "addrmap top {\n" + ONE + regs + "};\n",
        "unordered": "addrmap top {\n" + ONE + "".join("reg { field {} a; field {} b[2]; } i%d @ 0x%X;\n" % (i, 0x100 + 4 * (n - i)) for i in range(n)) + "};\n",
        "shared_bits": "addrmap top {\n" + ONE + "".join("reg { field { sw = r; } p[3:0]; field { sw = w; } q[3:0]; } i%d;\n" % i for i in range(n)) + "};\n",
    }


EDITS = dict(matrix.EDITS)
EDITS.update({
    "regwidth_root": "default / regwidth 64", "reset_root": "default / reset 0", "width_root": "default / fieldwidth 2", "alignment": "set /$top alignment 64",
    "add_type": "add / first reg N { field {} y; };", "desc_top": 'set /$top desc "x"', "bad_value": "set /$top/a regwidth 3",
    "bad_type": "add /$top last NoType zz;", "bad_target": "assign /$top a.zz reset 1", "too_wide": "reset /$top/a/b 9", "past": "bits /$top/a/b [40:39]",
})

if __name__ == "__main__":
    here = {"deep_4": "/d/d/d/d", "deep_12": "/d" * 12}
    import re
    if "--shapes" in sys.argv and sys.argv[sys.argv.index("--shapes") + 1] in here:
        inside = here[sys.argv[sys.argv.index("--shapes") + 1]]
        EDITS = {k: re.sub(r"/\$top(?=/a|$)", "/$top" + inside, v) if k not in ("rename_top", "desc_top", "alignment") else v for k, v in EDITS.items()}
        EDITS = {k: v.replace("assign /$top a", "assign /$top%s a" % inside).replace("add /$top ", "add /$top%s " % inside) for k, v in EDITS.items()}
    sys.exit(matrix.main(shapes, EDITS))
