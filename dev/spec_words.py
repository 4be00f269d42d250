"""Reads the definitions of specs/ and the types of src/, and finds of what each of them speaks.

It goes by the layout that `rt fmt` gives: a definition begins at the left edge, and what belongs to it is indented or begins with its
name. A word is found by the `use` lines of its file. It knows nothing else of the language: a name that is bound in a definition hides
the word of that name in the whole equation or field, and the traits of files and streams are not followed.
"""
import dataclasses
import functools
import pathlib
import re

NAME = r"[^\W\d][\w']*(?:-[^\W\d][\w']*)*"
# A word with the words behind its points, or an operator; what stands right behind a point is a field of a value.
WORD = re.compile(rf"(?<!\.)\b{NAME}(?:\.{NAME})*|[^\w\s(){{}}.,;]+")
HEAD = re.compile(rf"(?:(?:pub|abbrev|unfoldable) )*(record |data )?({NAME})(?= )")
NO_HEAD = re.compile(r"(?:pub )?(?:use|mod) |unfolding")
FIELD = re.compile(rf"  (?:pub )?({NAME}) :")
# A constructor where its `data` gives it its name: another `data` of the file may have one of the same name.
OF_DATA = re.compile(rf"^{FIELD.pattern}", re.M)
LOGIC_USE = re.compile(r"^ *(?:ghost )?(?:pub )?use Rattle\.([^;\n]*?);?$", re.M)
TYPE_USE = re.compile(r"^use (\w+)(?:::\w+)*?::(?:\{(.*?)\}|(\w+));", re.M | re.S)
TYPE = re.compile(r"^pub (?:struct|enum|type|trait) (\w+)\b.*?(?:;|\{\}|^\})$", re.M | re.S)
MODEL = re.compile(r"^impl(?:<.*?>)? Model for (\w+).*?^\}", re.M | re.S)
FUNCTION = re.compile(r"^( *)(pub )?fn (\w+)\b.*?^\1(?:\{|\}|[^\n]*;$)", re.M | re.S)
CLAUSE = re.compile(r"^ +(?:requires|ensures) ?(\w*) \{(.*?)\};?$", re.M | re.S)


# How many columns a line has for the sums of what is to be read.
WIDE = 150


@dataclasses.dataclass(eq=False)
class Definition:
    """A definition, or a type: where it stands, its kind, how many lines of comment stand at it, and its own lines."""

    path: pathlib.Path
    name: str
    line: int
    kind: str
    comments: int
    lines: list

    def blocks(self):
        """Its signature and its equations, or its fields, each as its lines."""
        blocks = []
        for line in self.lines:
            if not blocks or self.kind == "record" or line.startswith(self.name + " "):
                blocks.append([])
            blocks[-1].append(line)
        return blocks

    def size(self):
        """How many lines of WIDE columns it takes, wherever its file breaks them; those of a type as they stand."""
        return len(self.lines) if self.kind == "type" else sum(-(-len(line) // WIDE) for line in whole_lines(self.lines))


def whole_lines(lines):
    """Lines with those put together that were broken: such a line is indented deeper than a field, or stands in an open bracket."""
    whole = []
    for line in lines:
        if whole and (line.startswith("   ") or is_open(whole[-1])):
            whole[-1] += f" {line.strip()}"
        else:
            whole.append(line)
    return whole


def is_open(line):
    return sum(line.count(sign) for sign in "([{") > sum(line.count(sign) for sign in ")]}")


class Logic:
    """A file of specs/ or proofs/: its definitions by name, and where the words come from that it uses."""

    def __init__(self, path):
        text = path.read_text(encoding="utf-8")
        self.path, self.definitions, self.scope = path, {}, scope_of(text)
        self.last, self.comments = None, 0
        for number, line in enumerate(text.splitlines(), 1):
            self.take(number, line)

    def take(self, number, line):
        if line.lstrip().startswith("--"):
            self.comments += line.startswith("--")
            return
        head = HEAD.match(line)
        if head and not NO_HEAD.match(line) and not (self.last and self.last.name == head[2]):
            self.last = Definition(self.path, head[2], number, (head[1] or "").strip(), self.comments, [])
            self.definitions[head[2]] = self.last
        if self.last and line.strip() and not LOGIC_USE.match(line):
            self.last.lines.append(line)
            constructor = FIELD.match(line) if self.last.kind == "data" else None
            if constructor:
                self.definitions[constructor[1]] = self.last
        self.comments = 0


class Source:
    """A file of src/: its public types by name, and where the words and types come from that it uses."""

    def __init__(self, path, crate, crates):
        text = path.read_text(encoding="utf-8")
        self.path, self.text, self.definitions, self.scope = path, text, {}, scope_of(text)
        for way, many, one in TYPE_USE.findall(text):
            home = crate if way == "crate" else way
            if home in crates:
                self.scope.update((name, (f"{home}.declared", name)) for name in re.findall(r"\w+", many or one))
        models = {found[1]: found[0] for found in MODEL.finditer(text)}
        for found in TYPE.finditer(text):
            self.definitions[found[1]] = type_of(path, text, found, models.get(found[1], ""))


def contracts(text):
    """The functions of a text of src/: whether each is public, its name, and its clauses with their names."""
    for found in FUNCTION.finditer(text):
        yield bool(found[2]), found[3], CLAUSE.findall(found[0])


def type_of(path, text, found, model):
    lines = [line.strip() for line in (found[0] + "\n" + model).splitlines() if line.strip() and not LOGIC_USE.match(line)]
    said = [line for line in lines if not line.startswith(("//", "#"))]
    return Definition(path, found[1], text[: found.start()].count("\n") + 1, "type", len(lines) - len(said), said)


def scope_of(text):
    """For each word of the `use` lines its module and its name there; the name is none for a module as a whole."""
    return {key_of(alias or name or module.split(".")[-1]): (module, name) for module, name, alias in imports_in(text)}


def imports_in(text):
    """What the `use` lines of a text import: each word with its module, or a module as a whole, and the name that it is given, if any."""
    for path in LOGIC_USE.findall(text):
        yield from imports_of(path)


def imports_of(path):
    """What an import names: one module, or a list of words behind it; or behind a folder of a crate a list of such modules."""
    module, _, listed = path.partition(".{")
    if not listed:
        module, _, alias = path.partition(" as ")
        yield module, None, alias
        return
    for part in parts_of(listed.removesuffix("}")):
        if module.count(".") == 1 or part.endswith("}"):
            yield from imports_of(f"{module}.{part}")
        else:
            name, _, alias = part.partition(" as ")
            yield module, name, alias


def parts_of(text):
    """The parts of a list between braces, at its commas that no inner braces hold."""
    parts, depth, start = [], 0, 0
    for place, sign in enumerate(text):
        depth += {"{": 1, "}": -1}.get(sign, 0)
        if sign == "," and depth == 0:
            parts.append(text[start:place].strip())
            start = place + 1
    return [part for part in [*parts, text[start:].strip()] if part]


def key_of(word):
    """The first part of an operator, by which it is found: `if` of `if◌then◌else◌`."""
    return word.strip("◌").split("◌")[0]


def bound_in(text):
    """The names that are bound in a text: in front of a colon in brackets, behind a λ, behind `let`."""
    groups = re.findall(r"[({]([^(){}:=]*) : ", text) + re.findall(r"λ ([^.(]*)\. ", text) + re.findall(rf"let ({NAME})", text)
    return set(re.findall(NAME, " ".join(groups)))


class Words:
    """The crates of a folder, and what their definitions speak of."""

    def __init__(self, top):
        self.crates = top / "crates"
        self.floors, self.order = floors_of(top / "crates.txt")
        self.kit = set()
        self.file = functools.cache(self.read)

    def read(self, path):
        return Logic(path) if path.suffix == ".antt" else Source(path, self.crate_of(path), self.order)

    def crate_of(self, path):
        return path.relative_to(self.crates).parts[0]

    def sources(self, crate):
        return [self.file(path) for path in sorted((self.crates / crate / "src").glob("**/*.rt"))]

    def defined(self):
        """The definitions of specs/ and the public types of src/, crate by crate."""
        for crate in self.order:
            for path in sorted((self.crates / crate / "specs").glob("*.antt")):
                yield from dict.fromkeys(self.file(path).definitions.values())
            for source in self.sources(crate):
                yield from source.definitions.values()

    def find(self, module, name):
        """The definition of a name of a module; none for a word of the kit, which is noted, and for a module."""
        crate, _, rest = module.partition(".")
        if crate not in self.order:
            self.kit.add(f"{module}.{name}")
            return None
        if "declared" in rest.split("."):
            return self.declared(crate, rest.split(".declared")[-1].strip(".").split("."), name)
        path = self.crates / crate / (rest.replace(".", "/") + ".antt")
        file = self.file(path if path.is_file() else path.parent.with_suffix(".antt"))
        return file.definitions.get(name) or (self.find(*file.scope[name]) if name in file.scope else None)

    def declared(self, crate, steps, name):
        """The type of a crate with this name, or with this variant."""
        wanted = [step for step in steps if step and not step.startswith("The")][-1:] + [name]
        for file in self.sources(crate):
            for one in wanted:
                if one in file.definitions:
                    return file.definitions[one]
        return None

    def spoken(self, text, file, bound=frozenset()):
        """The definitions that a text of a file speaks of, but for the names that are bound in it."""
        for word in WORD.findall(text):
            head, _, tail = word.partition(".")
            if head in bound:
                continue
            if head in file.definitions:
                yield file.definitions[head]
            elif head in file.scope:
                module, name = file.scope[head]
                yield self.find(module, name or tail.split(".")[0])

    def uses(self, definition):
        """The definitions that a definition speaks of."""
        file = self.file(definition.path)
        if definition.kind == "type":
            return set(self.spoken(" ".join(definition.lines), file, {definition.name})) - {None}
        found, fields = set(), set()
        for place, block in enumerate(definition.blocks()):
            text = re.sub(r'"[^"]*"|--.*', " ", "\n".join(block))
            if definition.kind == "data":
                text = OF_DATA.sub("  ", text)
            field = FIELD.match(text) if definition.kind == "record" else None
            bound = bound_in(text) | fields
            if not definition.kind and place:
                bound |= self.parameters(file, definition, text)
            found |= set(self.spoken(text[field.end() :] if field else text, file, bound))
            if definition.kind == "record":
                fields |= {field[1]} if field else bound
        return found - {None}

    def parameters(self, file, definition, equation):
        """The names on the left of an equation that are no constructors."""
        return {name for name in re.findall(NAME, re.split(r" =\s", equation)[0]) if not self.makes(file, definition, name)}

    def makes(self, file, definition, name):
        """Whether the name is the definition's own or one of a constructor."""
        made = file.definitions.get(name) or (self.find(*file.scope[name]) if name in file.scope else definition)
        return name == definition.name or made is None or (made is not definition and made.kind in ("type", "data"))

    def closure(self, starts):
        """All that some definitions rest on, each with what it speaks of."""
        uses, ahead = {}, [start for start in starts if start]
        while ahead:
            definition = ahead.pop()
            if definition not in uses:
                uses[definition] = self.uses(definition)
                ahead += uses[definition]
        return uses

    def promised(self, crate, source, function, clauses=()):
        """The definitions that the clauses of a function speak of; all its clauses where none are named."""
        file = self.file(self.crates / crate / "src" / source)
        said = [text for _, own, found in contracts(file.text) if own == function for name, text in found if name in clauses or not clauses]
        if not said:
            raise SystemExit(f"{file.path}: {function} has no such clause")
        return self.spoken(" ".join(said), file)


def floors_of(path):
    """The heading of each crate, and the place of each crate in the list."""
    floors, heading = {}, ""
    for line in path.read_text(encoding="utf-8").splitlines():
        if line.startswith("#"):
            heading = line.lstrip("# ")
        elif ":" in line:
            floors[line.split(":")[0].split()[0]] = heading
    return floors, {crate: place for place, crate in enumerate(floors)}
