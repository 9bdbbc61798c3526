"""Follows names from the contracts of public calls through the files of specs/: which definitions a contract means.

A name of a clause is a definition of its own file, or what a line `use` brings: of another file of specs/, or a type that is declared in
src/. Of a type the types of its fields are followed, and where such a type is seen as a value (`impl Model`), the definitions of that
value. The toolchain's own libraries are named, and not followed.
"""
import functools
import glob
import os
import re

TOP = os.path.abspath(os.path.join(os.path.dirname(os.path.abspath(__file__)), ".."))
USE = re.compile(r"^\s*(?:pub )?(?:ghost )?use Rattle\.([\w.]+?)(?:\.\{([^}]*)\}| as (\w+))?;?\s*$")
# What begins a definition; `pub` alone begins a field.
HEAD = re.compile(r"\s*(?:pub )?(?:abbrev|unfoldable|record|data) (?:pub )?(?!\{)(\S+)")
WORD = re.compile(r"«\w+»|[\w?']+(?:\.\w+)*|[^\w\s(){},;.:]+")
SKIPPED = re.compile(r"^\s*(--.*|//.*|(?:pub )?(?:ghost )?use .*|module _.*|(?:pub )?mod .*)?$")
STD = ("std", "core")


def read(path):
    with open(path, encoding="utf-8") as file:
        return file.read()


def is_line(line):
    """Whether a line is one of those that are counted: no blank, comment or import."""
    return not SKIPPED.match(line)


class Spec:
    """A file of specs/: what it imports, and the lines of each of its definitions."""

    def __init__(self, path):
        self.path = path
        self.lines = read(path).splitlines()
        self.names, self.modules, self.passed = {}, {}, {}
        self.parts = {}
        current = None
        for number, line in enumerate(self.lines, 1):
            found = USE.match(line)
            if found:
                self.imported(found, line)
            elif is_line(line):
                current = self.head_of(line) or current
                self.parts.setdefault(current, []).append(number)
        self.parts.pop(None, None)

    @staticmethod
    def head_of(line):
        """The name that a line begins to define, or None."""
        found = HEAD.match(line)
        return found and found[1].rstrip(":")

    def imported(self, found, line):
        module, names, alias = found.groups()
        if alias:
            self.modules[alias] = module
        elif names is not None:
            for name in (it.strip() for it in names.split(",")):
                if name:
                    given, _, own = name.partition(" as ")
                    self.names.setdefault((own or given).strip(), (module, given.strip()))
                    if line.lstrip().startswith("pub use"):
                        self.passed[(own or given).strip()] = (module, given.strip())

    def text_of(self, name):
        return "\n".join(self.lines[number - 1].split(" -- ")[0] for number in self.parts[name])


def constructors(text):
    """The constructors of a type that is written with `data`."""
    return re.findall(r"^\s+([^\s:]+) : ", text, re.MULTILINE)


@functools.lru_cache(maxsize=None)
def spec_of(module):
    """The file of a module `X.specs.A.B`, or None."""
    crate, _, rest = module.partition(".specs.")
    path = f"{TOP}/crates/{crate}/specs/{rest.replace('.', '/')}.antt"
    return Spec(path) if os.path.isfile(path) else None


@functools.lru_cache(maxsize=None)
def types_in(crate):
    """The types of a crate: of each its file and its text, and the definitions that its value is made of."""
    found = {}
    for path in sorted(glob.glob(f"{TOP}/crates/{crate}/src/**/*.rt", recursive=True)):
        text = read(path)
        for item in re.finditer(r"^(?:pub(?:\(crate\))? )?(?:struct|enum) (\w+)[^;{]*(?:\{.*?^\}|\(.*?\);|;)", text, re.MULTILINE | re.DOTALL):
            found[item[1]] = (path, "\n".join(line for line in item[0].splitlines() if not line.strip().startswith("//")))
    return found


def value_of(path, name):
    """The imports and the words of what a type is seen as."""
    text = read(path)
    item = re.search(rf"^impl(?:<[^{{]*>)? Model for {name}\b.*?^\}}", text, re.MULTILINE | re.DOTALL)
    return item[0] if item else ""


class Closure:
    """All that is reached."""

    def __init__(self):
        self.seen = set()
        self.files = {}
        self.edges = {}
        self.toolchain = set()
        self.lost = set()
        self.left = []

    def from_contract(self, path, function):
        """Begins with the clauses of a public function."""
        text = read(path)
        item = re.search(rf"^(?: *)pub fn {function}\b.*?^( *)\{{", text, re.MULTILINE | re.DOTALL)
        clauses = "\n".join(re.findall(r"^\s*(?:ensures|requires|ghost) .*$", item[0], re.MULTILINE))
        self.follow_rust(path, clauses, path)
        self.run()

    def follow_rust(self, path, clauses, source):
        names = {}
        for line in read(path).splitlines():
            found = USE.match(line)
            if found and found[2] is not None:
                for name in (it.strip() for it in found[2].split(",")):
                    given, _, own = name.partition(" as ")
                    names[(own or given).strip()] = (found[1], given.strip())
        for word in self.words(clauses):
            for part in (word, word.split(".")[0]):
                if part in names:
                    self.reach(*names[part], source)

    @staticmethod
    def words(text):
        return set(WORD.findall(text))

    def reach(self, module, name, source):
        crate = module.split(".")[0]
        if crate in STD:
            return
        if ".declared." in module:
            self.reach_type(crate, module, name, source)
            return
        spec = spec_of(module)
        if spec is None:
            self.toolchain.add(module)
            return
        if name in spec.passed:
            self.reach(*spec.passed[name], source)
            return
        if name not in spec.parts:
            wanted, name = name, next((it for it in spec.parts if name in constructors(spec.text_of(it))), None)
            if name is None:
                self.lost.add(f"{module}.{wanted}")
                return
        self.enter(("spec", module, name), spec.path, source)

    def reach_type(self, crate, module, name, source):
        last = [it for it in module.split(".declared.")[1].split(".") if it != "TheVariants"]
        types = types_in(crate)
        if not types:
            return
        for one in (last[-1], name):
            if one in types:
                self.enter(("type", crate, one), types[one][0], source)
                return
        self.lost.add(f"{module}.{name}")

    def enter(self, key, path, source):
        if source and source != path:
            self.edges.setdefault(source, set()).add(path)
        if key not in self.seen:
            self.seen.add(key)
            self.left.append((key, path))

    def run(self):
        while self.left:
            (kind, where, name), path = self.left.pop()
            if kind == "spec":
                self.take_spec(spec_of(where), name)
            else:
                self.take_type(where, name, path)

    def take_spec(self, spec, name):
        self.files.setdefault(spec.path, set()).update(spec.parts[name])
        for word in self.words(spec.text_of(name)):
            self.name_in(spec, word, name)
        for own, (module, given) in spec.names.items():
            if "◌" in own and re.sub(r"[◌\s]", "", own) in re.sub(r"\s", "", spec.text_of(name)) or own == "◌>>=◌" and "← " in spec.text_of(name):
                self.reach(module, given, spec.path)

    def name_in(self, spec, word, name):
        first = word.split(".")[0]
        if word in spec.parts or first in spec.parts:
            one = word if word in spec.parts else first
            if one != name:
                self.enter(("spec", self.module(spec), one), spec.path, None)
        elif first in spec.names:
            self.reach(*spec.names[first], spec.path)
        elif first in spec.modules and "." in word:
            module = spec.modules[first]
            self.reach(module, word.split(".")[1], spec.path)
        else:
            for one in spec.parts:
                if one != name and first in constructors(spec.text_of(one)):
                    self.enter(("spec", self.module(spec), one), spec.path, None)

    @staticmethod
    def module(spec):
        rest = os.path.relpath(spec.path, f"{TOP}/crates")[:-len(".antt")].replace("/", ".")
        return rest

    def take_type(self, crate, name, path):
        text = types_in(crate)[name][1]
        uses = read(path)
        for word in set(re.findall(r"\b[A-Z]\w+", text)) - {name}:
            for other in self.owners(crate, uses, word):
                self.enter(("type", other, word), types_in(other)[word][0], path)
        value = value_of(path, name)
        if value:
            self.follow_model(path, value)

    @staticmethod
    def owners(crate, uses, word):
        if word in types_in(crate):
            yield crate
            return
        for other in re.findall(r"^use (tesla_\w+)", uses, re.MULTILINE):
            if word in types_in(other) and re.search(rf"^use {other}\b[^;]*\b{word}\b", uses, re.MULTILINE):
                yield other
                return

    def follow_model(self, path, value):
        names = {}
        for line in value.splitlines():
            found = USE.match(line)
            if found and found[2] is not None:
                for name in (it.strip() for it in found[2].split(",")):
                    names[name] = found[1]
        told = "\n".join(re.findall(r"ghost (?:Value|view) = .*", value))
        for word in self.words(told):
            if word in names:
                self.reach(names[word], word, path)


def reached(contracts):
    """What the contracts of these functions mean, each named by its file and its name."""
    closure = Closure()
    for path, function in contracts:
        closure.from_contract(f"{TOP}/{path}", function)
    return closure
