"""The definitions of the repository's crates, and what names what: for the tools that read them.

It begins with the names in some contracts and goes on through the names in each definition that it comes to. A name is looked up
where it stands: among the definitions of its own file, and in the lines `use Rattle.CRATE.specs.MODULE.{..}` of it. In doubt it
counts, as where a parameter or a field has the name of a definition, so that nothing that is reached is left out.
"""
import os
import re
import sys

from sources.crates import HERE, read_crates

WORD = r"[^\W\d][\w']*"


def read(path):
    with open(path, encoding="utf-8") as file:
        return file.read()


def in_order():
    """The crates of the repository, each behind those that it stands on."""
    named, order = read_crates(), []

    def put(name):
        if name in named and name not in order:
            for below in named[name]:
                put(below)
            order.append(name)

    for name in named:
        put(name)
    return order


def modules(crate, folder="specs", names="Lib.antt"):
    """The files of a crate's definitions: those of its public contracts, and behind them those of specs/inside/."""
    listed = f"{HERE}/crates/{crate}/specs/{names}"
    if os.path.exists(listed):
        for module in re.findall(r"^pub mod (\w+)", read(listed), re.M):
            if module == "inside":
                yield from modules(crate, "specs/inside", "inside.antt")
            else:
                yield f"{folder}/{module}.antt"


class Definition:
    """A definition of a module, or a type of the code: its file's scope, its name, and the lines that say it."""

    def __init__(self, scope, name, lines):
        self.scope, self.name, self.lines = scope, name, lines

    def count(self, fields=None):
        return len(self.kept(fields))

    def kept(self, fields):
        """Its lines; of a record whose fields are told, its head and these fields."""
        if fields is None:
            return self.lines
        kept, wanted = [], True
        text = "\n".join(self.lines)
        for field in fields:
            if not re.search(rf"^ +pub {field} :", text, re.M):
                sys.exit(f"tools/believe: {self.name} has no field {field}, which the headline begins with")
        for line in self.lines:
            field = re.match(rf" +pub ({WORD}) :", line)
            wanted = field[1] in fields if field else wanted
            if wanted:
                kept.append(line)
        return kept


class Scope:
    """A file: its definitions in their order, and what the names that it uses mean."""

    def __init__(self, crate, path, text):
        self.crate, self.path = crate, path
        self.definitions, self.names, self.aliases = [], {}, {}
        self.text = re.sub(r"(?:^|(?<=\s))(?:--|//)(?=[ /!\n]).*", "", text, flags=re.M)
        uses = r"^ *(?:ghost )?use ([\w.]+?)(?:\.\{([^}]*)\}| as (\w+))?;?$"
        for module, names, alias in re.findall(uses, self.text, re.M):
            if alias:
                self.aliases[alias] = module
            for name in filter(None, (one.strip() for one in names.split(","))):
                whole, _, short = name.partition(" as ")
                self.names[(short or whole).replace("◌", "")] = (module, whole)

    def read_definitions(self):
        """Parts the text of a module of specs/ into definitions."""
        name = None
        for line in self.text.splitlines():
            begins = re.match(r" *(?:(?:abbrev|unfoldable)(?: pub)?|pub (?:record|data)) (\S+)", line)
            if begins:
                name = begins[1]
                self.definitions.append(Definition(self, name, []))
            elif re.match(r"(?:use|pub mod|module|infix\w*) ", line):
                name = None
            if name and line.strip():
                self.definitions[-1].lines.append(line.rstrip())


class Repository:
    """All modules of specs/, and the types of the code that they speak of."""

    def __init__(self):
        self.order, self.scopes, self.makers = in_order(), {}, {}
        for crate in self.order:
            for path in modules(crate):
                scope = Scope(crate, path, read(f"{HERE}/crates/{crate}/{path}"))
                scope.read_definitions()
                self.scopes[f"Rattle.{crate}.{path[:-5].replace('/', '.')}"] = scope
        for scope in self.scopes.values():
            for one in scope.definitions:
                if one.lines[0].lstrip().startswith("pub data"):
                    for maker in re.findall(rf"^ +({WORD}) :", "\n".join(one.lines), re.M):
                        self.makers[id(scope), maker] = one
        self.types = {}

    def module(self, path, name):
        """What a name of a module means: a definition, the data that it makes, a type of the code, or None for std."""
        scope = self.scopes.get(path)
        if scope:
            return self.own(scope, name)
        declared = re.match(r"Rattle\.(\w+)\.specs\.declared\.(.*)", path)
        if declared and declared[1] in self.order:
            parts = declared[2].split(".")
            if parts[-1] == "TheVariants":
                parts.pop()
            return self.type(declared[1], "/".join(parts[:-1]), parts[-1])
        return None

    def own(self, scope, name):
        for one in scope.definitions:
            if one.name.replace("◌", "") == name.replace("◌", ""):
                return one
        return self.makers.get((id(scope), name))

    def type(self, crate, module, name):
        """A type of the code, whose lines are those of its declaration without attributes."""
        key = crate, module, name
        if key not in self.types:
            base = f"{HERE}/crates/{crate}"
            files = (f"src/{module or 'lib'}.rt", f"src/{module or 'main'}.rt", f"src/{module}/mod.rt")
            path = next(file for file in files if os.path.exists(f"{base}/{file}"))
            scope = Scope(crate, path, read(f"{base}/{path}"))
            declared = rf"^(?:pub(?:\(crate\))? )?(?:struct|enum|type) {name}\b(?:[^;{{]*;|[^;{{]*\{{.*?^\}})"
            found = re.search(declared, scope.text, re.M | re.S)
            lines = [line for line in found[0].splitlines() if line.strip() and not line.strip().startswith("#")]
            self.types[key] = Definition(scope, name, lines)
        return self.types[key]

    def imported(self, scope, name):
        """A type that a file of the code uses by its name."""
        for crate, path in re.findall(r"^(?:pub )?use (\w+)(?:::([^;]*))?;", scope.text, re.M):
            if not re.search(rf"\b{name}\b", path):
                continue
            owner = scope.crate if crate == "crate" else crate
            base = f"{HERE}/crates/{owner}/src"
            for at, _, files in sorted(os.walk(base)):
                for file in sorted(files):
                    if re.search(rf"^pub(?:\(crate\))? (?:struct|enum|type) {name}\b", read(f"{at}/{file}"), re.M):
                        return owner, os.path.relpath(f"{at}/{file}", base)[:-3]
        return None

    def used_by(self, one, fields):
        """The definitions that a definition names."""
        lines = one.kept(fields)
        if one.scope.path.startswith("src/"):
            return self.used_by_type(one, lines)
        return [found for found in self.used_in(one.scope, lines) if found is not one]

    def used_by_type(self, one, lines):
        """The types of the repository that a type of the code has. A variant's own name is none."""
        text = "\n".join(lines)
        if re.match(r"(?:pub(?:\(crate\))? )?enum", text):
            text = re.sub(r"^    [A-Z]\w*", "", text, flags=re.M)
        found = []
        for name in sorted(set(re.findall(r"\b[A-Z]\w*", text)) - {one.name}):
            if re.search(rf"^(?:pub(?:\(crate\))? )?(?:struct|enum|type) {name}\b", one.scope.text, re.M):
                found.append(self.type(one.scope.crate, one.scope.path[4:-3], name))
                continue
            where = self.imported(one.scope, name)
            if where:
                found.append(self.type(*where, name))
        return found

    def used_in(self, scope, lines):
        """The definitions that lines name."""
        found = []
        for name, behind in tokens(lines):
            if name in scope.aliases and behind:
                reached = self.module(scope.aliases[name], behind[1:])
            elif name in scope.names:
                reached = self.module(*scope.names[name])
            else:
                reached = self.own(scope, name)
            if reached and reached not in found:
                found.append(reached)
        return found


def tokens(lines):
    """The words and signs of lines, each with what stands behind a point at it. A field, which stands behind a point, is none, and
    each arrow of a `do` is a use of the operator `>>=`."""
    text = "\n".join(lines).replace("←", ">>=")
    every = re.findall(rf"(\.?)({WORD}|[^\s\w(){{}},;.:]+)((?:\.{WORD})?)", text)
    return [(name, behind) for point, name, behind in every if not point]


def file_of(crate, path):
    """A file of a crate's code."""
    return Scope(crate, path, read(f"{HERE}/crates/{crate}/{path}"))


def walk(repository, roots, cuts):
    """All that is reached from some definitions; `cuts` has the fields of records that alone are followed."""
    reached, queue = [], list(roots)
    while queue:
        one = queue.pop()
        if one not in reached:
            reached.append(one)
            queue += repository.used_by(one, cuts.get(one.name))
    return reached


def ordered(repository, reached):
    """The files of what is reached, lowest crate first, each with its definitions in their order."""
    places = {id(scope): at for at, scope in enumerate(repository.scopes.values())}
    files = {}
    for one in reached:
        files.setdefault((one.scope.crate, one.scope.path), []).append(one)

    def key(item):
        (crate, path), ones = item
        return repository.order.index(crate), path.startswith("specs/"), places.get(id(ones[0].scope), 0), path

    for (crate, path), ones in sorted(files.items(), key=key):
        whole = read(f"{HERE}/crates/{crate}/{path}")
        yield crate, path, sorted(ones, key=lambda one: whole.index(one.lines[0].strip()))
