#!/usr/bin/env python3
"""Lists the places of src/ that an older form of the language left: python3 tools/places.py [1..7] [FOLDER].

Each list is by a plain rule over the text, given above its function; a listed place may well be good as it is."""
import re
import sys
from collections import defaultdict
from pathlib import Path

KEYWORDS = set("as break const continue else enum fn for if impl in let loop match mod move mut pub ref return self Self struct trait "
               "true false type use where while Some None Ok Err u8 u16 u32 u64 usize bool".split())
FN = re.compile(r"^(\s*)((?:pub(?:\(crate\))? )?(?:const )?fn (\w+))", re.M)


def code(text):
    """The text without comments and ghost lines."""
    out = []
    for line in text.split("\n"):
        bare = line.split("//")[0]
        out.append("" if re.match(r"\s*ghost |\s*requires |\s*ensures ", bare) else bare)
    return "\n".join(out)


def functions(path):
    """Name, line, head, clauses and body of each function with a body."""
    raw = path.read_text()
    for m in FN.finditer(raw):
        lines = raw[m.start():].split("\n")
        head, clauses, rest = [], [], []
        state = "head"
        opened = 0
        for line in lines:
            s = line.strip()
            if state == "head":
                if re.match(r"requires |ensures ", s):
                    state = "clauses"
                elif line.rstrip().endswith("{") and not re.match(r"(requires|ensures)", s):
                    state = "body"
                    opened = line.count("{") - line.count("}")
                    head.append(line)
                    continue
                elif s.endswith(";") and not s.endswith("];"):
                    head.append(line)
                    break
                else:
                    head.append(line)
                    continue
            if state == "clauses":
                if re.match(r"requires |ensures ", s):
                    clauses.append(s)
                    if s.endswith(";"):
                        break
                    continue
                if s == "{":
                    state = "body"
                    opened = 1
                    continue
                break
            if state == "body":
                opened += code(line).count("{") - code(line).count("}")
                if opened <= 0:
                    break
                rest.append(line)
        if state == "body":
            yield m.group(3), raw[:m.start()].count("\n") + 1, " ".join(x.strip() for x in head), clauses, "\n".join(rest)


def sources(root):
    return sorted(p for p in Path(root).glob("crates/*/src/*.rt"))


def grep(root, *patterns):
    for p in sources(root):
        for n, line in enumerate(p.read_text().split("\n"), 1):
            if re.match(r"\s*ghost ", line):
                continue
            if any(re.search(x, line) for x in patterns):
                yield f"{p.relative_to(root)}:{n}: {line.strip()[:110]}"


def point1(root):
    """A bool for whether a step was done (the function takes a &mut), a bool field, a Result turned round, a number for a kind or
    for none (a comment says 'or 0', '0 for', '1 more than', '1 and the', '(1)'; a constant NONE; a u8 answer for a rule or a theorem)."""
    for p in sources(root):
        for name, n, head, _, _ in functions(p):
            if "-> bool" in head and "&mut" in head:
                yield f"{p.relative_to(root)}:{n}: {name} -> bool"
            if re.search(r"-> Option<\w*Fault>|\(\) -> u8 *\{?$", head) or name == "broken_rule":
                yield f"{p.relative_to(root)}:{n}: {name} {head[head.find('->'):][:40]}"
    yield from grep(root, r"^\s+(pub(\(crate\))? )?\w+: bool,", r"//.*(\bor 0\b|\b0 for\b|1 more than|^1 and the|\(1\)|has for each slot 0)", r"const NONE",
                    r"\brule: u8", r"Result<bool")


def shape(body):
    words = re.findall(r"[A-Za-z_]\w*|\d\w*|b?'.'|[^\s\w]", code(body))
    return " ".join(w if w in KEYWORDS or not re.match(r"[A-Za-z_\db]", w) else "N" if re.match(r"\d|b?'", w) else "I" for w in words)


def point2(root):
    """Functions whose bodies are the same but for names and numbers (12 words or more, or one name twice); constants of one number and kind."""
    groups, names = defaultdict(list), defaultdict(list)
    for p in sources(root):
        for name, n, head, _, body in functions(p):
            s = shape(body)
            place = f"{p.relative_to(root)}:{n} {name}"
            if len(s.split()) >= 12:
                groups[s].append(place)
            elif s not in ("N",):
                names[(name, s)].append(place)
    for g in list(groups.values()) + list(names.values()):
        if len(g) > 1:
            yield "; ".join(g)
    consts = defaultdict(list)
    for p in sources(root):
        for n, line in enumerate(p.read_text().split("\n"), 1):
            m = re.match(r"(?:pub(?:\(crate\))? )?const (\w+): \w+ = (\d+);", line)
            if m:
                consts[m.group(2)].append(f"{p.relative_to(root)}:{n} {m.group(1)}")
    for v, g in consts.items():
        if len(g) > 1:
            yield f"constant {v}: " + "; ".join(g)


def point3(root):
    """Loops that count by hand: over a range of numbers, or a while with a counter."""
    yield from grep(root, r"\bfor \w+ in \(?[\w.()]+\.\.", r"\bwhile [^l]")


def point4(root):
    """Equality, copying, conversion and printing by hand: by the names of functions, and loops whose body copies or compares one item."""
    yield from grep(root, r"\bfn (\w*same\w*|\w*write_(line|name|number)|put_(decimal|number)|mnemonic|refusal|encode|decode|pack|\w+_of_word|opcode_of|first_of|second_of|name_bytes|clear)\b",
                    r"^\s+\w[\w.]*\[[^]]+\] = \w+\[[^]]+\];", r"\[\w+\] != \w+\[\w+\]", r"/ 0x|% 0x", r"b'0' \+")


def clause_key(c):
    c = re.sub(r"^(requires|ensures) ?\w* ?\{", "", c).rstrip("};, ")
    return re.sub(r"\.(old|now|new|entry)", "", c).strip()


def point5(root):
    """A clause that stands in the contracts of three or more functions, and three or more parameters that three or more functions share."""
    facts, groups = defaultdict(set), defaultdict(set)
    for p in sources(root):
        crate = p.parts[-3]
        for name, n, head, clauses, _ in functions(p):
            place = f"{p.relative_to(root)}:{n} {name}"
            for c in clauses:
                if "result" not in c:
                    facts[(crate, clause_key(c))].add(place)
            m = re.search(r"fn \w+(?:<[^(]*>)?\((.*)\)", head)
            params = [x.strip() for x in re.split(r",(?![^<(\[]*[>)\]])", m.group(1))] if m else []
            params = [x for x in params if x and not x.endswith("self")]
            if len(params) >= 4:
                for i in range(len(params)):
                    for j in range(i + 1, len(params)):
                        for k in range(j + 1, len(params)):
                            groups[(crate, params[i], params[j], params[k])].add(place)
    for (crate, f), s in sorted(facts.items()):
        if len(s) >= 3:
            yield f"{crate}: {len(s)} functions: {f[:100]}"
    whole = defaultdict(set)
    for key, s in groups.items():
        if len(s) >= 3:
            whole[(key[0], frozenset(s))].update(key[1:])
    for (crate, s), ps in sorted(whole.items(), key=lambda x: (x[0][0], -len(x[1]))):
        yield f"{crate}: {len(s)} functions share {', '.join(sorted(ps))[:150]}"


def point6(root):
    """Structs with an array and a length or a second array, and functions that fill a lent slice and answer how far."""
    for p in sources(root):
        text = p.read_text()
        for m in re.finditer(r"struct (\w+)[^{;]*\{(.*?)\n\}", text, re.S):
            body = code(m.group(2))
            arrays = len(re.findall(r": (?:&'a mut |&'a )?\[", body))
            if arrays >= 2 or (arrays == 1 and re.search(r"\b(len|count|top|at): ", body)):
                yield f"{p.relative_to(root)}:{text[:m.start()].count(chr(10)) + 1}: struct {m.group(1)}: {arrays} arrays"
        for name, n, head, _, _ in functions(p):
            if re.search(r"&mut \[", head) and re.search(r"\b(at|count|depth|place): (usize|Depth)", head) or re.search(r"&mut \[.*-> (Option<)?\(?usize", head):
                yield f"{p.relative_to(root)}:{n}: {name}"


def point7(root):
    """A value of an enum of steps that is passed on to choose one: a match on a parameter whose arms only call or make."""
    yield from grep(root, r"\bRole::", r"\brole: ", r"\bfn\(", r"dyn Fn")


def main():
    which = [a for a in sys.argv[1:] if a.isdigit()] or list("1234567")
    root = next((a for a in sys.argv[1:] if not a.isdigit()), ".")
    for k in which:
        found = list(globals()[f"point{k}"](root))
        print(f"point {k}: {len(found)}")
        for f in found:
            print(f"  {f}")


main()
