# SPDX-License-Identifier: MIT
"""Reads the sources of the repository: the list of crates, files of definitions and proofs (.antt), files of
code (.rt). What the scripts beside it share. It is no command of its own; it looks for nothing but names and
layout, as `rt fmt` leaves them."""
import functools
import hashlib
import re
from pathlib import Path

ROOT = Path(__file__).resolve().parent.parent
CRATES = ROOT / "crates"

# Words that stand before a name and do not change what it means.
MARKS = {"pub", "abbrev", "unfoldable", "opaque"}
# A name of antt: any run of other characters than these.
TOKEN = re.compile(r'[^\s(){}.;,@"«»]+|"(?:\\.|[^"\\])*"|[(){}.;,@«»]')


def listed(name):
    """The lines of a list at the root, without comments."""
    path = ROOT / name
    if not path.exists():
        return []
    lines = (line.split("#")[0].strip() for line in path.read_text().splitlines())
    return [line for line in lines if line]


@functools.cache
def crates():
    """Each crate of crates.txt with the crates that it stands on."""
    found = {}
    for line in listed("crates.txt"):
        head, _, rest = line.partition(":")
        found[head.split()[0]] = rest.split()
    return found


@functools.cache
def static_libraries():
    """The crates that are built for C and Rust to link."""
    heads = (line.partition(":")[0].split() for line in listed("crates.txt"))
    return [head[0] for head in heads if "staticlib" in head[1:]]


def below(name, all_crates):
    """The crate and every listed crate that it reaches."""
    seen, todo = [], [name]
    while todo:
        at = todo.pop()
        if at in all_crates and at not in seen:
            seen.append(at)
            todo += all_crates[at]
    return seen


def above(name, all_crates):
    """The crate and every listed crate that reaches it."""
    return [other for other in all_crates if name in below(other, all_crates)]


def digest(text):
    return hashlib.sha256(text.encode()).hexdigest()[:16]


def tokens(text):
    return TOKEN.findall(text)


def plain_antt(text):
    """The text with its comments blanked; lines stay where they are."""
    def blank(match):
        return match.group(0) if match.group(0)[0] == '"' else re.sub(r"[^\n]", " ", match.group(0))
    return re.sub(r'"(?:\\.|[^"\\\n])*"|\{-.*?-\}|(?<!\S)--[^\n]*', blank, text, flags=re.S)


def plain_rt(text):
    """The same for a file of code."""
    def blank(match):
        return match.group(0) if match.group(0)[0] == '"' else re.sub(r"[^\n]", " ", match.group(0))
    return re.sub(r'"(?:\\.|[^"\\\n])*"|/\*.*?\*/|//[^\n]*', blank, text, flags=re.S)


def bare(text):
    """The text's words alone, one space between two."""
    return " ".join(text.split())


# ---- definitions and proofs

class Item:
    """A named thing of an .antt file: a definition or law with its clauses, a record, a data type."""

    def __init__(self, name, kind, file, context, line):
        self.name, self.kind, self.file, self.line = name, kind, file, line
        self.context = context      # the parameters of the modules that it stands in
        self.chunks = []            # its text, a piece for the signature and one for each clause
        self.inner = []             # constructors of a data type
        self.fields = []            # fields of a record
        self.axiom = False

    def text(self):
        """What it says, with the parameters of its module, without marks, comments and layout."""
        words = [word for word in tokens(" ".join(self.context + self.chunks)) if word not in MARKS]
        return " ".join(words)

    def statement(self):
        """Its type, with the parameters of its module in front."""
        signature = bare(self.chunks[0])
        after = signature.split(" : ", 1)[1] if " : " in signature else signature
        return bare(" ".join(self.context + [after]))


SIGNATURE = re.compile(r"((?:(?:unfoldable|opaque|abbrev|axiom|pub) )*)(\S+)(?: \{[^}]*\})? :(?:\s|$)")
USE = re.compile(r"(pub )?use ([^\s{]+?)(?:\.\{(.*)\}| as (\S+))?;?$", re.S)


class Module:
    """One .antt file: what it declares, and what its `use` lines bring."""

    def __init__(self, path):
        self.path = path
        self.items, self.mods, self.uses = {}, [], []
        self._current = None
        self._fixity = {}
        lines = plain_antt(path.read_text()).split("\n")
        self._block(list(enumerate(lines, 1)), 0, [])
        for name, text in self._fixity.items():
            if name in self.items:
                self.items[name].chunks.append(text)

    def _block(self, lines, indent, context):
        """Cuts the lines of one layout block into pieces, each begun at the block's own column."""
        piece = []
        for number, line in lines:
            if not line.strip():
                continue
            column = len(line) - len(line.lstrip())
            if column <= indent and piece:
                self._piece(piece, indent, context)
                piece = []
            piece.append((number, line))
        if piece:
            self._piece(piece, indent, context)

    def _piece(self, piece, indent, context):
        number, text = piece[0][0], "\n".join(line for _, line in piece)
        first = text.split()
        words = [word for word in first if word not in MARKS]
        head = words[0] if words else ""
        if head == "use":
            self.uses.append(bare(text))
        elif head == "mod":
            self.mods.append(words[1].rstrip(";"))
        elif head.startswith("infix"):
            for name in words[2:]:
                self._fixity[name] = bare(text)
        elif head in ("module", "mutual"):
            opened = next((at for at, (_, line) in enumerate(piece) if re.search(r"\bwhere\s*$|^\s*mutual\s*$", line)), 0)
            header = bare(" ".join(line for _, line in piece[:opened + 1]))
            rest = piece[opened + 1:]
            if rest:
                inner = len(rest[0][1]) - len(rest[0][1].lstrip())
                here = context + ([header] if head == "module" else [])
                self._block(rest, inner, here)
            self._current = None
        elif head in ("record", "data") and len(words) > 1:
            item = Item(words[1], head, self.path, context, number)
            item.chunks.append(bare(text))
            for _, line in piece[1:]:
                match = SIGNATURE.match(line.strip())
                if match:
                    names = [word for word in line.split(" :")[0].split() if word not in MARKS]
                    (item.inner if head == "data" else item.fields).extend(names)
            self.items[item.name] = item
            self._current = None
        elif head in ("open", "package", "ruleset", "unfold"):
            self._current = None
        else:
            match = SIGNATURE.match(bare(text) + " ")
            if match:
                item = Item(match.group(2), "law", self.path, context, number)
                item.axiom = "axiom" in match.group(1)
                item.chunks.append(bare(text))
                self.items[item.name] = self._current = item
            elif self._current is not None:
                self._current.chunks.append(bare(text))


_modules = {}


def module(path):
    if path not in _modules:
        _modules[path] = Module(path) if path.is_file() else None
    return _modules[path]


@functools.cache
def law_files(crate):
    """The files of proofs/ that the crate's proofs/Lib.antt reaches by `mod` lines, with their module names."""
    return _declared(CRATES / crate / "proofs", "proofs")


@functools.cache
def spec_files(crate):
    return _declared(CRATES / crate / "specs", "specs")


def _declared(folder, name):
    found, todo = {}, [(folder / "Lib.antt", folder, name)]
    while todo:
        path, inside, dotted = todo.pop()
        here = module(path)
        for mod in here.mods if here else []:
            child = inside / f"{mod}.antt"
            if child.is_file():
                found[child] = f"{dotted}.{mod}"
                todo.append((child, inside / mod, f"{dotted}.{mod}"))
    return found


# ---- code

class Function:
    """A function of an .rt file: its signature, the clauses of its contract, its body."""

    def __init__(self, crate, inside, match, file, signature, clauses, body):
        self.crate, self.file = crate, file
        self.public, self.exported = bool(match.group(1)), bool(match.group(2))
        self.name = "::".join((*inside[1], match.group(3)))             # within its module, as `FrameReader::new`
        self.path = "::".join((crate, *inside[0], *inside[1], match.group(3)))
        self.signature, self.clauses, self.body = signature, clauses, body
        self.start, self.stop = 0, 0                                    # where it stands in its file, blanked as `plain_rt` does


def _closing(text, at):
    """The index behind the bracket that closes the one at `at`."""
    pairs, depth = {"(": ")", "{": "}", "[": "]"}, 0
    for index in range(at, len(text)):
        if text[index] in pairs:
            depth += 1
        elif text[index] in pairs.values():
            depth -= 1
            if depth == 0:
                return index + 1
    return len(text)


FN = re.compile(r'((?:pub )?)((?:extern "C" )?)fn (\w+)\s*(?:<(?:->|[^<>]|<[^<>]*>)*>)?\(')


@functools.cache
def functions(crate):
    """Every function of the crate, with its contract."""
    found = []
    folder = CRATES / crate / "src"
    for file in sorted(folder.rglob("*.rt")):
        text = plain_rt(file.read_text())
        inside = file.relative_to(folder).with_suffix("").parts
        inside = () if inside in (("lib",), ("main",)) else inside
        blocks = [(m.start(), _closing(text, m.end() - 1), m.group(1)) for m in re.finditer(r"\bimpl(?:<[^>]*>)? (\w+)[^{]*\{", text)]
        for match in FN.finditer(text):
            clauses, at = [], _closing(text, match.end() - 1)
            arrow = re.match(r"\s*->\s*[^{]*?(?=\s*(?:\{|\n\s*(?:requires|ensures|ghost|\w+\s*\{)))", text[at:])
            end = at + (arrow.end() if arrow else 0)
            signature = bare(text[match.start():end])
            at = end
            while True:
                clause = re.match(r"\s*([^\s{;][^{;]*)\{", text[at:])
                if not clause:
                    break
                close = _closing(text, at + clause.end() - 1)
                clauses.append(bare(text[at:close]))
                at = close
            start = text.find("{", at)
            body = text[start:_closing(text, start)] if start >= 0 else ""
            owner = [name for start, stop, name in blocks if start < match.start() < stop]
            found.append(Function(crate, (inside, owner), match, file, signature, clauses, body))
            found[-1].start, found[-1].stop = match.start(), start + len(body)
    return found


@functools.cache
def declared(crate):
    """The structs, enums, constants and type names of the crate's code, by name: (file, text)."""
    found = {}
    for file in sorted((CRATES / crate / "src").rglob("*.rt")):
        text = plain_rt(file.read_text())
        for match in re.finditer(r"^(?:pub )?(struct|enum|const|type) (\w+)[^;{]*(?:;|\{)", text, re.M):
            end = _closing(text, match.end() - 1) if match.group(0)[-1] == "{" else text.index(";", match.start()) + 1
            if match.group(1) in ("const", "type"):
                end = text.index(";", match.start()) + 1
            found.setdefault(match.group(2), (file, bare(text[match.start():end])))
    return found


def without_contracts(text):
    """Code with its contracts and ghost lines left out: what is run."""
    text = plain_rt(text)
    text = re.sub(r"^\s*ghost use [^;]*;", "", text, flags=re.M)
    out, at = [], 0
    for match in re.finditer(r"^\s*(?:requires|ensures|ghost|invariant|measure|decreases)\b[^{;\n]*\{", text, re.M):
        if match.start() < at:
            continue
        out.append(text[at:match.start()])
        at = _closing(text, match.end() - 1)
    return "".join(out) + text[at:]


class Program:
    """A wrong program: CRATE/LABEL, the .edit file that has it, and its replacements, each (file, old text, new text)."""

    def __init__(self, crate, label, file):
        self.crate, self.label, self.file = crate, label, file
        self.name, self.parts, self.grouped = f"{crate}/{label}", [], False


def programs(crate, file):
    """The wrong programs of an edit, its file's name the label; in an edit of several each begins with a line `# program: LABEL`.
    What stands on other lines than `file:`, `old:` and `new:` is a comment, as for `rt`."""
    found, where, old = [Program(crate, file.stem, file)], "", ""
    for line in file.read_text().splitlines():
        if line.startswith("# program: "):
            if not found[-1].parts and not found[-1].grouped:
                found.pop()
            found.append(Program(crate, line[11:].strip(), file))
            found[-1].grouped = True
        elif line.startswith("file: "):
            where = line[6:]
        elif line.startswith("old: "):
            old = line[5:]
        elif line.startswith("new:"):
            found[-1].parts.append((where, old, line[4:].removeprefix(" ")))
            old = ""
    return found


def all_programs(several=False):
    """Every wrong program that has an edit to itself, in the order of crates.txt; or those that an edit of several holds."""
    for crate in crates():
        for file in sorted((CRATES / crate / "must-fail").glob("*.edit")):
            yield from (program for program in programs(crate, file) if program.grouped == several)
