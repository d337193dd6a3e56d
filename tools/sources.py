"""Reads the crates' sources as text: their functions with their contracts, and the must-fail edits."""
import re
from pathlib import Path

TOP = Path(__file__).resolve().parent.parent
CRATES = TOP / "crates"


class Owner:
    """What a method belongs to: a type, and where the type has it for a trait, that trait with what it promises there."""

    def __init__(self, comment, trait, kind):
        self.comment, self.trait, self.kind, self.facts = comment, trait, kind, []
        # the prover writes the words of the trait behind the type: `ValueFromResultU64Refusal`
        words = re.findall(r"\w+", re.sub(r"^(?:\w+::)*", "", trait or ""))
        self.folder = kind + "".join(word[0].upper() + word[1:] for word in words)


class Function:
    """A function of Rattle: where it stands, its comment, its signature and its promises."""

    def __init__(self, crate, path, owner, name, comment, lines, exported, cycle):
        self.crate, self.path, self.name, self.comment = crate, path, name, comment
        self.trait_facts = owner.facts if owner else []
        self.public = exported or bool(self.trait_facts)
        # a trait's method is asked for by the type's name
        self.question = owner.kind if self.trait_facts else name
        if self.trait_facts:
            self.comment = owner.comment
        inner = path.relative_to(CRATES / crate / "src").with_suffix("").parts
        self.modules = [] if inner in (("lib",), ("main",)) else list(inner)
        self.names = [*self.modules, *([owner.kind] if owner else []), name]
        # the folder of its proof, which functions that call each other share
        self.place = "/".join([*self.modules, *([owner.folder] if owner else []), f"+{cycle}" if cycle else name])
        self.head, self.body = split(lines)

    def title(self):
        """Its name as a caller in another crate says it, with the names of its parameters."""
        return "::".join([self.crate, *self.names]) + f"({', '.join(self.parameters())})"

    def parameters(self):
        signature = " ".join(" ".join(self.head).split())
        # behind the types in angle brackets, which may speak of functions
        named = re.search(rf"fn {self.name}", signature).end()
        opened = signature.index("(", named if signature[named] == "(" else closing(signature.replace("->", "  "), named))
        inside = signature[opened + 1 : closing(signature, opened)]
        names = [part.split(":")[0].replace("mut ", "").strip() for part in pieces(inside)]
        return [name for name in names if name]

    def promises(self):
        """The facts that it ensures, as they are written."""
        text, facts = "\n".join(self.head), list(self.trait_facts)
        for found in re.finditer(r"\bensures\b[^{]*\{", text):
            inside = text[found.end() : closing(text, found.end() - 1)]
            facts.append(" ".join(inside.split()))
        return facts

    def requires(self):
        return any(re.match(r"\s*requires\b", line) for line in self.head)


def closing(text, at):
    """Where the bracket at `at` is closed."""
    opened, pair = 0, {"(": ")", "{": "}", "<": ">"}
    for i in range(at, len(text)):
        if text[i] == text[at]:
            opened += 1
        elif text[i] == pair[text[at]]:
            opened -= 1
            if opened == 0:
                return i
    raise ValueError(f"a bracket is not closed: {text[at : at + 60]}")


def pieces(text):
    """The parts between a text's outermost commas."""
    parts, depth, part = [], 0, ""
    for c in text:
        depth += (c in "([<") - (c in ")]>")
        if c == "," and depth == 0:
            parts.append(part)
            part = ""
        else:
            part += c
    return [*parts, part]


def split(lines):
    """A function's lines as its head, with the contract, and its body."""
    margin = re.match(r" *", lines[0][1]).group()
    for i, (_, line) in enumerate(lines):
        if line == margin + "{":
            return [text for _, text in lines[:i]], lines[i:]
    for i, (_, line) in enumerate(lines):
        if line.endswith("{"):
            return [text for _, text in lines[: i + 1]], lines[i + 1 :]
    return [text for _, text in lines], []


# a method that a trait asks for, up to the semicolon behind its contract
DECLARED = re.compile(r" +fn \w+[^;{]*?(?:\s(?:ensures|requires)\b[^;{]*\{[^{}]*\}\s*)*;")
IMPL = re.compile(r"impl(?:<[^>]*>)? (?:(?P<trait>.+) for )?(?P<kind>\w+)(?:<.*>)? \{")


def functions(crate):
    """All functions of a crate, file by file. Of a trait's own methods only those with a body."""
    found = []
    for path in sorted((CRATES / crate / "src").rglob("*.rt")):
        lines, at, offsets = path.read_text().splitlines(), 0, []
        for line in lines:
            offsets.append(at)
            at += len(line) + 1
        owner, comment, cycle, i = None, [], None, 0
        while i < len(lines):
            line = lines[i]
            if opened := IMPL.match(line):
                owner = Owner(comment, opened["trait"], opened["kind"])
            elif line == "}":
                owner = None
            if owner and (fact := re.match(r" +ghost (\w+) = \{ (.*) \};", line)):
                owner.facts.append(f"{fact[1]}: {fact[2]}")
            if start := DECLARED.match("\n".join(lines[i : i + 8])):
                i, comment = i + start.group().count("\n"), []
            elif start := re.match(r'( *)(pub(?:\(crate\))? )?(?:extern "C" )?fn (\w+)', line):
                end = next(j for j in range(i, len(lines)) if lines[j] in (start.group(1) + "}", line) and lines[j].endswith("}"))
                numbered = list(zip(offsets[i : end + 1], lines[i : end + 1]))
                public = start.group(2) == "pub "
                found.append(Function(crate, path, owner if start.group(1) else None, start.group(3), comment, numbered, public, cycle))
                i, comment, cycle = end, [], None
            elif member := re.match(r" *#\[cycle\((\w+)\)\]", line):
                cycle = member[1]
            elif line.strip().startswith("//"):
                comment = [*comment, line.strip()[2:].strip()]
            elif not line.strip().startswith("#["):
                comment = []
            i += 1
    asked = [f.question for f in found]
    for f in found:
        if f.trait_facts and asked.count(f.question) > 1:
            f.question += ", " + ", ".join(f.parameters())
    return found


class Edit:
    """A wrong program: its label, the question whose promise it breaks, what is wrong, and what it replaces."""

    def __init__(self, crate, file, label, question, wrong):
        self.crate, self.file, self.label, self.question, self.wrong = crate, file, label, question, wrong
        self.pairs = []

    def function(self, texts, known):
        """The function whose body it changes, and it alone; None where it changes anything else. A constant that one body names is part
        of that body, and so is what opens a body behind a contract's last line, which stays as it is. `texts` are the crate's sources with
        the replacements before it made."""
        places = set()
        for name, old, new in self.pairs:
            path = CRATES / self.crate / name
            text = texts.setdefault(name, path.read_text())
            at = text.find(old)
            if at < 0 or text.count(old) != 1:
                raise ValueError(f"{self.label}: an old: text stands in {name} {text.count(old)} times")
            opens = new.startswith(old + " {") and text.startswith("\n", at + len(old))
            places.add(changed(path, text.count("\n", 0, at) + opens, known))
            texts[name] = text[:at] + new + text[at + len(old) :]
        return places.pop() if len(places) == 1 else None


def changed(path, line, known):
    """The function that has a line of a file, from 0, in its body, or that alone names the constant there; None without one. An edit
    replaces text within a line, so lines stay where they are."""
    inside = [f for f in known if f.path == path and spans(f, line)]
    if inside:
        return inside[0]
    constant = re.match(r"const (\w+):.*;", path.read_text().splitlines()[line]) if path.suffix == ".rt" else None
    named = [f for f in known if constant and any(re.search(rf"\b{constant[1]}\b", text) for _, text in f.body)]
    return named[0] if len(named) == 1 else None


def spans(function, line):
    """Whether a line of its file, from 0, is in a function's body."""
    text = function.path.read_text()
    return bool(function.body) and text.count("\n", 0, function.body[0][0]) <= line <= text.count("\n", 0, function.body[-1][0])


LABEL = re.compile(r"# (\w+) \(([^)]+)\): (.+)")


def edits(crate):
    """The edits of a crate by their files, each file's in its order."""
    files = {}
    for path in sorted((CRATES / crate / "must-fail").glob("*.edit")):
        files[path.stem], name, old = [], None, None
        for number, line in enumerate(path.read_text().splitlines(), 1):
            if begun := LABEL.fullmatch(line):
                files[path.stem].append(Edit(crate, path.stem, *begun.groups()))
            elif line.startswith("file: "):
                name = line[len("file: ") :]
            elif line.startswith("old: "):
                old = line[len("old: ") :]
            elif line.startswith("new:"):
                if not files[path.stem] or name is None or old is None:
                    raise ValueError(f"{path.relative_to(TOP)}:{number}: a replacement without '# LABEL (QUESTION): ..', file: or old:")
                files[path.stem][-1].pairs.append((name, old, line[len("new:") :].removeprefix(" ")))
                old = None
            elif line:
                raise ValueError(f"{path.relative_to(TOP)}:{number}: not a line of an edit: {line}")
    return files


def crates():
    """The names of the crates that crates.txt lists, in its order."""
    lines = (line.split("#")[0] for line in (TOP / "crates.txt").read_text().splitlines())
    return [line.split(":")[0].split()[0] for line in lines if line.strip()]
