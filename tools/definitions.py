"""The definitions of specs/, proofs/ and src/, and the definitions that each of them names: for tools/check-contracts, tools/rests-on and tools/reading-lists.

The `use` lines of a file say what a name means, unless something nearer binds the name: a parameter, a variable of a pattern, a λ or a `let`."""
import collections
import dataclasses
import functools
import glob
import os
import re

ROOT = os.path.normpath(os.path.join(os.path.dirname(os.path.abspath(__file__)), ".."))
WORD = r"«[^»]*»|[^\s(){}.;,@\"«»]+"
TOKEN = re.compile(r"""(?P<text>"(?:\\.|[^"\\])*")|(?P<name>(?:%s)(?:\.(?:%s))*)|(?<=[\s)])\.(?P<field>%s)|(?P<mark>[(){}.;,@])""" % ((WORD,) * 3))
COMMENT = re.compile(r"(?<!\S)--.*")
MARKS = ("unfoldable", "abbrev", "axiom", "pub")
RESERVED = set("data record deriving module where use mod pub package using open as unfoldable abbrev axiom unfold unfolding elim let in do".split())
RESERVED |= set("λ ∀ Type → ← = : | ↦ [ ] _".split())
OPENING, CLOSING = {"(": ")", "{": "}"}, (")", "}")


@dataclasses.dataclass(eq=False)
class Item:
    """A definition. `first` and `last` are its first and last line, counted from 1, with its comment; `typed` is the last line of its type. `statement` has the
    words of its type, and `clauses` those of each clause, field or constructor. `also` has the names of its constructors and variants. `enclosing` has the
    `module _` lines around it. `public` says that other files may name it."""

    path: str
    name: str
    kind: str
    first: int
    last: int
    typed: int
    statement: list
    clauses: list
    also: tuple = ()
    enclosing: tuple = ()
    public: bool = True


def item_text(item):
    """The lines of a definition that are not blank."""
    return [line for line in read_lines(item.path)[item.first - 1 : item.last] if line.strip()]


@functools.cache
def read_lines(path):
    with open(os.path.join(ROOT, path), encoding="utf-8") as file:
        return file.read().split("\n")


def tokens_of(text):
    """The words of a text: names unchanged, fields as '.' and the name, without quoted texts."""
    found = []
    for one in TOKEN.finditer("\n".join(COMMENT.sub("", line) for line in text.split("\n"))):
        if one["field"]:
            found.append("." + one["field"])
        elif one["name"]:
            found.append(one["name"])
        elif one["mark"]:
            found.append(one["mark"])
    return found


def indent_of(line):
    return len(line) - len(line.lstrip())


def plain(name):
    """A name without the marks that escape it."""
    return name[1:-1] if name.startswith("«") and name.endswith("»") and "◌" not in name else name


# ---- files of specs/ and proofs/


class Source:
    """A file: its definitions by name, and what its `use` lines bring in."""

    def __init__(self, path):
        self.path = path
        self.items = {}
        self.brought = {}
        self.modules = {}
        self.parts = collections.defaultdict(set)

    def add(self, item):
        for name in (item.name, *item.also):
            self.items.setdefault(name, item)
            self.add_parts(name)

    def add_parts(self, name):
        if "◌" in name and not name.startswith("«"):
            for part in name.split("◌"):
                if part:
                    self.parts[part].add(name)

    def use(self, line):
        """Adds what one `use` line brings in."""
        if found := re.match(r"(?:pub |unfoldable |ghost )*use ([^{]*?)\.\{(.*)\}\s*;?\s*$", line):
            for one in filter(None, (part.strip() for part in found[2].split(","))):
                name, _, other = one.partition(" as ")
                path, _, last = name.strip().rpartition(".")
                spelled = other.strip() or last
                self.brought[spelled] = (found[1] + ("." + path if path else ""), last)
                self.add_parts(spelled)
        elif found := re.match(r"(?:pub |ghost )*use (\S+?)(?: as (\S+?))?\s*;?\s*$", line):
            self.modules[found[2] or found[1].rsplit(".", 1)[-1]] = found[1]


def logical_lines(lines, first, last, indent):
    """The pieces of lines first..last (from 0) that begin at a column, each with the deeper lines below it. A comment line or a blank line is a piece by itself."""
    at = first
    while at < last:
        end = at + 1
        if lines[at].strip() and not lines[at].lstrip().startswith("--"):
            while end < last and (not lines[end].strip() or indent_of(lines[end]) > indent or lines[end].strip()[0] in ")}]"):
                end += 1
            while not lines[end - 1].strip():
                end -= 1
        yield at, end
        at = end


@functools.cache
def read_antt(path):
    lines = read_lines(path)
    source = Source(path)
    read_block(source, lines, 0, len(lines), 0, ())
    return source


def read_block(source, lines, first, last, indent, enclosing):
    """Reads the declarations of a block. `enclosing` are the `module _` lines around it."""
    comment, item = None, None

    def finish():
        nonlocal item
        if item:
            source.add(item)
            item = None

    for at, end in logical_lines(lines, first, last, indent):
        text = "\n".join(lines[at:end])
        words = text.split()
        if not words:
            comment = None
        elif words[0].startswith("--"):
            comment = at if comment is None else comment
            continue
        elif words[0] == "use" or words[:2] in (["pub", "use"], ["unfoldable", "pub"]) and "use" in words[:3]:
            source.use(" ".join(words))
        elif words[0] in ("mod", "infix", "infixl", "infixr", "open") or words[:2] == ["pub", "mod"]:
            pass
        elif "mutual" in words[:2]:
            finish()
            read_block(source, lines, at + 1, end, indent_of(lines[at + 1]), enclosing)
        elif words[0] == "module":
            finish()
            head = next(n for n in range(at, end) if lines[n].rstrip().endswith("where"))
            start = at if comment is None else comment
            words = " ".join("\n".join(lines[at : head + 1]).split())
            block = Item(source.path, words[: -len(" where")], "module", start + 1, head + 1, head + 1, tokens_of(words)[2:-1], [], (), enclosing)
            body = next((n for n in range(head + 1, end) if lines[n].strip()), end)
            if body < end:
                read_block(source, lines, body, end, indent_of(lines[body]), enclosing + (block,))
        elif declared := declaration(text):
            finish()
            kind, name, statement, clauses, also = declared
            start = at if comment is None else comment
            item = Item(source.path, name, kind, start + 1, end, end, statement, clauses, also, enclosing, "pub" in words[:3])
        elif item:
            item.last = end
            if words[0] != "unfolding":
                item.clauses.append(clause_lines(text))
        comment = None
    finish()


def declaration(text):
    """The kind, the name, the tokens of the type, the clauses and the further names of a declaration; None for a clause."""
    words = tokens_of(text)
    marks = []
    while words and words[0] in MARKS:
        marks.append(words.pop(0))
    if not words:
        return None
    if words[0] in ("record", "data"):
        kind, name = words[0], words[1]
        head, _, body = text.partition(" where\n")
        parts, also = [], []
        lines = body.split("\n")
        first = next((n for n, line in enumerate(lines) if line.strip() and not line.lstrip().startswith("--")), None)
        if first is not None:
            for at, end in logical_lines(lines, 0, len(lines), indent_of(lines[first])):
                part = tokens_of("\n".join(lines[at:end]))
                while part and part[0] in MARKS:
                    part.pop(0)
                if ":" in part:
                    names = part[: part.index(":")]
                    also += names
                    parts.append(("part", names, part[part.index(":") + 1 :]))
        statement = tokens_of(head)
        statement = statement[statement.index(name) + 1 :]
        return kind, name, statement, parts, tuple(also) if kind == "data" else ()
    name = words[0]
    rest = words[1:]
    if rest and rest[0] == "{" and "}" in rest and rest[rest.index("}") + 1 : rest.index("}") + 2] == [":"]:
        rest = rest[rest.index("}") + 1 :]
    if not rest or rest[0] != ":":
        return None
    kind = "axiom" if "axiom" in marks else "abbrev" if "abbrev" in marks else "unfoldable" if "unfoldable" in marks else "plain"
    return kind, name, rest[1:], [], ()


def clause_lines(text):
    """A clause: its tokens, and the lines of its `where` block, if it has one."""
    lines = text.split("\n")
    for n, line in enumerate(lines):
        if line.strip() == "where" or re.search(r"\swhere$", line):
            return ("clause", tokens_of("\n".join(lines[:n] + [re.sub(r"\bwhere$", "", line)])), lines[n + 1 :])
    return ("clause", tokens_of(text), [])


# ---- files of src/


@functools.cache
def read_rt(path):
    """A file of src/: its structs and enums, and its functions' contracts."""
    lines = read_lines(path)
    source = Source(path)
    joined = "\n".join(lines)
    for found in re.finditer(r"^ghost use [^;]*;", joined, re.M):
        source.use(" ".join(found[0].split()))
    for found in re.finditer(r"^(?:pub )?use ([\w:]+)::(?:(\w+)|\{([^}]*)\});", joined, re.M):
        for name in (found[2] or found[3]).split(","):
            source.brought.setdefault("rust " + name.strip(), (found[1], name.strip()))
    inside = None
    for at, line in enumerate(lines):
        if found := re.match(r"impl (\w+)", line):
            inside = found[1]
        elif line.startswith("}"):
            inside = None
        if found := re.match(r"(?:pub )?(struct|enum) (\w+)", line):
            end = at + 1
            if not line.rstrip().endswith((";", "}")):
                end = next(n for n in range(at, len(lines)) if lines[n].startswith("}")) + 1
            body = "\n".join(re.sub(r"//.*", "", one) for one in lines[at:end])
            names = re.findall(r"\b[A-Z]\w*\b", body)
            variants = re.findall(r"^    ([A-Z]\w*)", body, re.M) if found[1] == "enum" else []
            source.add(Item(path, found[2], found[1], above(lines, at) + 1, end, end, names, [], tuple(variants)))
        elif found := re.match(r"( *)(?:pub )?(?:extern \"C\" )?fn (\w+)", line):
            end = at + 1
            while end < len(lines) and lines[end - 1].rstrip() != found[1] + "}" and lines[end].rstrip() != found[1] + "{":
                end += 1
            text = "\n".join(re.sub(r"//.*", "", one) for one in lines[at:end])
            if "ensures" in text:
                name = "%s.%s" % (inside, found[2]) if inside and found[1] else found[2]
                source.items["fn " + name] = Item(path, name, "contract", above(lines, at) + 1, end, end, [text], [], public="pub " in line)
    return source


def above(lines, at):
    """The first line of the comment right above line `at`, attributes included."""
    while at and re.match(r" *(//|#\[)", lines[at - 1]):
        at -= 1
    return at


# ---- what a module's path and a name mean


def crate_of(path):
    return path.split("/")[1]


@functools.cache
def files_of(crate, part):
    found = []
    for folder, _, names in os.walk(os.path.join(ROOT, "crates", crate, part)):
        found += [os.path.relpath(os.path.join(folder, name), ROOT) for name in names]
    return sorted(found)


def rt_file(crate, modules):
    """The file of src/ that holds a module, or None if there is none."""
    for name in ["/".join(modules)] if modules else ["lib", "main"]:
        path = os.path.join("crates", crate, "src", name + ".rt")
        if os.path.exists(os.path.join(ROOT, path)):
            return path
    return None


def declared_type(crate, path):
    """The struct or enum that a path below `declared` names."""
    source = rt_file(crate, path[:-1]) if path else None
    return read_rt(source).items.get(path[-1]) if source else None


def contract_of(crate, path):
    """The contract of a function. `path` is that of the kit's generated modules: modules, perhaps a type, and the function's name."""
    for split in range(len(path)):
        source = rt_file(crate, path[:split])
        if source and (found := read_rt(source).items.get("fn " + ".".join(path[split:]))):
            return found
    return None


def meaning(module, name):
    """The definition that a module's name stands for; None if the name is the kit's."""
    found = re.match(r"Rattle\.(\w+)\.(specs|proofs)\.(.+)$", module)
    if not found:
        return None
    crate, part, path = found[1], found[2], found[3].split(".")
    if not os.path.isdir(os.path.join(ROOT, "crates", crate)):
        return None
    if part == "specs" and path[0] == "declared":
        return declared_type(crate, [one for one in path[1:] if one != "TheVariants"])
    file = os.path.join("crates", crate, part, *path) + ".antt"
    if os.path.exists(os.path.join(ROOT, file)):
        source = read_antt(file)
        if name in source.items:
            return source.items[name]
        if name in source.brought:
            return meaning(*source.brought[name])
    # the kit makes such a name of a function or a type, and it says what the function's contract or the type says
    return contract_of(crate, path[:-1]) or contract_of(crate, path) or declared_type(crate, path) or declared_type(crate, path[:-1])


def resolve(source, name):
    """What a name in a file stands for: a definition, or ('kit', module, name); None if the file doesn't say."""
    name = plain(name)
    if name in source.items:
        return source.items[name]
    if name in source.brought:
        module, original = source.brought[name]
        return meaning(module, original) or ("kit", module, original)
    if "." in name:
        head, _, last = name.rpartition(".")
        first, _, below = head.partition(".")
        if first in source.modules:
            module = source.modules[first] + ("." + below if below else "")
            return meaning(module, last) or ("kit", module, last)
        if first == "Rattle":
            return meaning(head, last) or ("kit", head, last)
        found = resolve(source, first)
        if isinstance(found, Item) and last in found.also:
            return found
        return None
    return None


# ---- the names that a definition uses


class Names:
    """The free names of a definition's tokens, with the meaning that its file gives them."""

    def __init__(self, source):
        self.source = source
        self.found = {}
        self.unknown = set()

    def take(self, name, bound):
        if name in bound or name in RESERVED or name.startswith(".") or re.match(r"[0-9]", name):
            return
        if name.split(".")[0] in bound:
            return
        spelled = [name]
        if resolve(self.source, name) is None and name in self.source.parts:
            spelled = sorted(self.source.parts[name])
        for one in spelled:
            meant = resolve(self.source, one)
            if meant is None:
                self.unknown.add(name)
            else:
                self.found[meant] = None

    def is_variable(self, name):
        """Whether a name in a pattern is a variable: it is, unless it names a constructor."""
        meant = resolve(self.source, name)
        if isinstance(meant, Item):
            return plain(name).rpartition(".")[2] not in meant.also
        return meant is None and name not in self.source.parts

    def pattern(self, tokens, bound):
        """Adds the variables of a pattern to `bound`, and collects its constructors. A type after ':' is walked."""
        at = 0
        while at < len(tokens):
            one = tokens[at]
            if one in ("(", "{"):
                inner, at = group(tokens, at)
                names = binders(inner)
                if names:
                    self.walk(inner[len(names) + 1 :], set(bound))
                    bound.update(names)
                else:
                    self.pattern(inner, bound)
                continue
            if one not in RESERVED and one not in (",", ";", ".", "@") and not one.startswith("."):
                if at + 1 < len(tokens) and tokens[at + 1] == "=":
                    pass
                elif "." not in one and self.is_variable(one):
                    bound.add(one)
                else:
                    self.take(one, bound)
            at += 1

    def walk(self, tokens, bound):
        """Collects the free names of an expression. What a binder binds is bound up to the end of the brackets around it."""
        at, waiting = 0, []
        while at < len(tokens):
            one = tokens[at]
            if one in OPENING:
                inner, after = group(tokens, at)
                names = binders(inner)
                if names:
                    self.walk(inner[len(names) + 1 :], set(bound))
                    bound.update(names)
                elif one == "{":
                    self.fields(inner, set(bound))
                else:
                    self.walk(inner, set(bound))
                at = after
                continue
            if one == "λ":
                end = until(tokens, at + 1, (".",))
                self.pattern(tokens[at + 1 : end], bound)
                at = end + 1
                continue
            if one == "let":
                end = until(tokens, at + 1, (":", "="))
                held = set()
                self.pattern(tokens[at + 1 : end], held)
                waiting.append(held)
                at = end if tokens[end : end + 1] == [":"] else end + 1
                continue
            if one == "in" and waiting:
                bound.update(waiting.pop())
            elif one not in (",", ";", ".", "@") and one not in CLOSING:
                self.take(one, bound)
            at += 1

    def fields(self, tokens, bound):
        """Walks the parts of a record literal or type, or an implicit argument by name."""
        for piece in split_at(tokens, ";"):
            named = len(piece) > 1 and piece[1] in ("=", ":")
            self.walk(piece[2:] if named else piece, set(bound))
            if named and piece[1] == ":":
                bound.add(piece[0])

    def clause(self, tokens, bound, own):
        """Walks a clause: what its left side binds is bound on its right side."""
        end = until(tokens, 0, ("=",))
        left = [one for one in tokens[:end] if one != own]
        self.pattern(left, bound)
        self.walk(tokens[end + 1 :], set(bound))

    def where(self, lines, bound):
        first = next((n for n, line in enumerate(lines) if line.strip()), None)
        if first is None:
            return
        pieces = ["\n".join(lines[at:end]) for at, end in logical_lines(lines, 0, len(lines), indent_of(lines[first]))]
        declared = [(piece, declaration(piece)) for piece in pieces if piece.strip() and not piece.lstrip().startswith("--")]
        names = {found[1] for _, found in declared if found}
        for piece, found in declared:
            inner = bound | names
            if found:
                self.walk(list(found[2]), inner)
            elif piece.split()[0] != "unfolding":
                _, tokens, below = clause_lines(piece)
                self.clause(tokens, inner, tokens[0])
                self.where(below, inner)


def binders(tokens):
    """The names x and y of '(x y : T)', if the tokens between the brackets have that form; otherwise none."""
    names = []
    for one in tokens:
        if one == ":":
            return names
        if one in RESERVED - {"_"} or one in OPENING or one in CLOSING or one in (",", ";", ".", "@") or one.startswith("."):
            return []
        names.append(one)
    return []


def group(tokens, at):
    """The tokens between a bracket and the one that closes it, and the index where the text goes on."""
    depth, end = 0, at
    while end < len(tokens):
        depth += (tokens[end] in OPENING) - (tokens[end] in CLOSING)
        if not depth:
            return tokens[at + 1 : end], end + 1
        end += 1
    return tokens[at + 1 :], end


def until(tokens, at, wanted):
    """The index of the first wanted token outside brackets."""
    depth = 0
    while at < len(tokens):
        if not depth and tokens[at] in wanted:
            return at
        depth += (tokens[at] in OPENING) - (tokens[at] in CLOSING)
        at += 1
    return at


def split_at(tokens, mark):
    """The pieces between those marks that are outside brackets."""
    pieces, depth = [[]], 0
    for one in tokens:
        depth += (one in OPENING) - (one in CLOSING)
        if one == mark and not depth:
            pieces.append([])
        else:
            pieces[-1].append(one)
    return [piece for piece in pieces if piece]


def source_of(item):
    return read_rt(item.path) if item.path.endswith(".rt") else read_antt(item.path)


@functools.cache
def names_of(item):
    """What a definition names: other definitions and names of the kit, in order; and the words that the file doesn't explain."""
    source = source_of(item)
    names = Names(source)
    if item.kind in ("struct", "enum"):
        for name in item.statement:
            if found := rust_type(source, name):
                names.found[found] = None
        names.found.pop(item, None)
    elif item.kind == "contract":
        walk_contract(names, item)
    else:
        bound = set()
        for block in item.enclosing:
            names.walk(block.statement, bound)
        names.walk(item.statement, bound if item.kind in ("record", "data") else set(bound))
        bound.add(item.name)
        for clause in item.clauses:
            if clause[0] == "part":
                names.walk(clause[2], set(bound))
                if item.kind == "record":
                    bound.update(clause[1])
            else:
                inner = set(bound)
                names.clause(clause[1], inner, item.name)
                names.where(clause[2], inner)
    names.found.pop(item, None)
    return list(names.found), names.unknown


def walk_contract(names, item):
    """Walks the types of a function's signature, and the antt of its contract."""
    text = item.statement[0]
    head = text.partition("(")[2]
    bound = {found.replace("mut ", "") for found in re.findall(r"\b(\w+): ", text)} | {"self", "result"}
    bound |= {"«%s»" % one for one in bound}
    signature = re.split(r"\b(?:requires|ensures)\b", head)[0]
    for name in re.findall(r"\b[A-Z]\w*\b", signature):
        if name == "Self" and "." in item.name:
            name = item.name.split(".")[0]
        if found := rust_type(names.source, name):
            names.found[found] = None
    for piece in re.findall(r"\b(?:requires|ensures)(?:\s+\w+)?\s*\{(.*?)\}\s*(?=requires|ensures|$)", text, re.S):
        names.walk(tokens_of(" " + piece), set(bound))


def rust_type(source, name):
    """The struct or enum that a capitalised word of a file of src/ names."""
    if name in source.items and source.items[name].name == name:
        return source.items[name]
    if "rust " + name in source.brought:
        path = source.brought["rust " + name][0].split("::")
        crate = crate_of(source.path) if path[0] == "crate" else path[0]
        if os.path.isdir(os.path.join(ROOT, "crates", crate)):
            return declared_type(crate, path[1:] + [name])
        own = rt_file(crate_of(source.path), path)
        return read_rt(own).items.get(name) if own else None
    return None


# ---- all that a statement rests on


def is_theorem(item):
    """Whether a definition is a theorem: its clauses need not be read, since its type says all."""
    return item.kind in ("plain", "axiom") and "/proofs/" in item.path and any(one in item.statement for one in ("≡", "<", "≤"))


@functools.cache
def statement_of(item):
    """A theorem without its proof; any other definition unchanged."""
    if item.kind not in ("plain", "axiom"):
        return item
    return dataclasses.replace(item, last=item.typed, clauses=[])


class Lost(Exception):
    """A name of one of the repository's modules that is not found there."""


@functools.cache
def contracts():
    """The propositions that the `ensures` of some function cites. Such a proposition says what the function's contract is. The check proves that the function
    meets it, whatever it says. So the conclusion alone of a theorem that takes it speaks of the function's outcomes."""
    cited = set()
    for crate in crates():
        for path in files_of(crate, "src"):
            for item in read_rt(path).items.values():
                if item.kind == "contract":
                    cited |= {one for one in names_of(item)[0] if isinstance(one, Item) and is_contract(one)}
    return cited


def is_contract(item):
    return item.path.split("/")[2] == "specs" and item.path.endswith("Contracts.antt") and item.statement[-2:] == ["Type", "0"]


def rests_on(starts, whole=False):
    """Four things: the definitions that the statements of `starts` rest on, with these statements, by file in reading order; the kit's names with their modules;
    the words that no file brings in, which are the prelude's; and the contracts met on the way. With `whole` contracts are followed like any other."""
    uses, kit, unknown, met = {}, set(), set(), set()
    todo = [statement_of(item) for item in starts]
    while todo:
        item = todo.pop()
        if item in uses or item in met:
            continue
        if not whole and item in contracts() and item not in starts:
            met.add(item)
            continue
        found, words = names_of(item)
        uses[item] = [statement_of(one) if is_theorem(one) else one for one in found if isinstance(one, Item)] + list(item.enclosing)
        kit.update(one[1:] for one in found if not isinstance(one, Item))
        for module, name in kit:
            if (crate := re.match(r"Rattle\.(\w+)", module)) and crate[1] in crates():
                raise Lost("%s: %s names %s.%s, which is not found" % (item.path, item.name, module, name))
        unknown |= words
        todo += uses[item]
    uses = {item: [one for one in others if one not in met] for item, others in uses.items()}
    return ordered(uses), sorted(kit), sorted(unknown), sorted(met, key=lambda item: (item.path, item.first))


def place(item):
    """The group that lists an item: its file. In a file of src/ the types and the contracts are two groups."""
    return item.path, item.kind == "contract"


def ordered(uses):
    """The items by group. Each group comes after the groups that it uses; among groups that can come next, the first one in the order of `order_of_crates` does."""
    groups = collections.defaultdict(list)
    for item in uses:
        groups[place(item)].append(item)
    needs = {one: set() for one in groups}
    for item, others in uses.items():
        needs[place(item)] |= {place(other) for other in others} - {place(item)}
    order, left = [], dict(needs)
    while left:
        ready = [one for one in left if not left[one] & set(left)] or [min(left)]
        order.append(min(ready, key=order_of_crates))
        del left[order[-1]]
    return [(path, sorted(groups[(path, contracts)], key=lambda item: item.first)) for path, contracts in order]


@functools.cache
def crates():
    with open(os.path.join(ROOT, "crates.txt"), encoding="utf-8") as file:
        return [line.split(":")[0].split()[0] for line in file if ":" in line and not line.startswith("#")]


def order_of_crates(group):
    """The order of groups: crates as in crates.txt, and in a crate its types, specs, contracts and proofs."""
    path, contracts = group
    crate, part = path.split("/")[1:3]
    known = crates().index(crate) if crate in crates() else len(crates())
    return known, {"src": 2 if contracts else 0, "specs": 1, "proofs": 3}[part], path


def lines_of(items):
    """The number of lines to read: each definition with its comment, without blank lines."""
    return len({(item.path, n) for item in items for n in range(item.first, item.last + 1) if read_lines(item.path)[n - 1].strip()})


# ---- naming a start


def find(start):
    """The items that FILE:NAME, CRATE:NAME or NAME stands for. FILE and NAME may have '*'; with a '*' in NAME only public theorems are found."""
    where, _, name = start.rpartition(":")
    pattern = re.compile("[^ ]*".join(map(re.escape, name.split("*"))) + "$")
    if where.endswith((".antt", ".rt")):
        files = sorted({os.path.relpath(path, ROOT) for folder in (ROOT, os.getcwd()) for path in glob.glob(os.path.join(folder, where))})
    else:
        of = [where] if where else crates()
        files = [path for crate in of for part in ("proofs", "specs", "src") for path in files_of(crate, part) if path.endswith((".antt", ".rt"))]
    found = []
    for path in files:
        source = read_rt(path) if path.endswith(".rt") else read_antt(path)
        items = [item for item in dict.fromkeys(source.items.values()) if pattern.match(item.name)]
        found += [item for item in items if "*" not in name or item.public and item.kind == "plain"]
    return found
