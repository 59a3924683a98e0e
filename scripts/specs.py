"""Reads the crates' definitions, for scripts/believed, openings and moved. In order: a definition, a file and what its names mean, all crates, what a
set of definitions reaches, and what has to be believed.

A definition is a signature, a `record` or a `data` type at the left margin, with its clauses. Names are resolved through the file's `use` lines.
No crate and no file is named here: crates and files may be cut anew."""
import re
from pathlib import Path

USE = re.compile(r'^\s*(?:ghost )?(?:unfoldable )?(pub )?use ([^\s{;]+?)(?:\.\{([^}]*)\}|\s+as\s+(\S+?))?;?$', re.M)
HEAD = re.compile(r'^(?P<marks>(?:(?:unfoldable|abbrev|pub) )*)(?P<kind>record |data )?(?P<name>[^\s:({=]+)(?:\s*[({][^)}]*[)}])*\s*:')
MODULE = re.compile(r'^Rattle\.([^.]+)\.specs(?:\.(.+))?$')
COMMENT = re.compile(r'\{-.*?-\}|^ *--[^\n]*', re.S | re.M)


def tokens(text):
    return re.findall(r'[^\s(){};,⌜⌝]+', text)


def is_code(line):
    words = line.split()
    return bool(words) and not words[0].startswith('--') and 'mod' not in words[:2] and not USE.match(line)


def named_by(word, name):
    """The word stands for the name: as it is, or as a part of an operator (`else` of `◌else◌`)."""
    return word == name or ('◌' in name and word != '' and word in name.split('◌'))


class Definition:
    def __init__(self, file, name, marks='', kind=''):
        self.file, self.name, self.marks, self.kind = file, name, marks.split(), kind.strip()
        self.lines = []

    def constructors(self):
        return [line.split()[0] for line in self.lines[1:]] if self.kind == 'data' else []

    def is_promise(self):
        """A closed statement: the signature is `NAME : Type 0`."""
        return not self.kind and re.search(r'^[^:]* : Type 0$', self.lines[0]) is not None

    def held(self):
        """Of a type that the code declares: the types of its file that its fields have."""
        words = re.findall(r'\w+', '\n'.join(self.lines[1:]))
        return [t for t in self.file.definitions.values() if t is not self and t.name in words]

    def clauses(self):
        """The signature and each clause, with the lines that continue it."""
        return re.split(r'\n(?=\S)', '\n'.join(self.lines))

    def bound_in(self, clause):
        """The names that a clause binds: in its signature, by λ and `let`, as fields, and on the left of its `=`."""
        bound = set(re.findall(r'^\s+(?:pub )?(\S+) :', clause, re.M)) if self.kind else set()
        for names in re.findall(r'[({]([^(){}:=]+?) : |λ ([^.]*)\.|\blet (\S+)', clause):
            bound.update(tokens(' '.join(names)))
        left = re.split(r' =\s', clause)[0]
        if ' : ' not in left:
            for word in tokens(left):
                d = self.file.meaning(word)
                if not d or (d is not self and word not in d.constructors()):
                    bound.add(word)
        return bound

    def uses(self):
        """The definitions that the text names."""
        for clause in self.clauses():
            bound = self.bound_in(clause)
            for word in tokens(clause):
                if word not in bound and word.split('.')[0] not in bound | {''}:
                    d = self.file.meaning(word)
                    if d:
                        yield d


class File:
    def __init__(self, crates, path, crate):
        self.crates, self.path, self.crate = crates, path, crate
        self.text = COMMENT.sub('', path.read_text())
        self.names, self.passed, self.modules, self.definitions = {}, {}, {}, {}
        for passed, module, names, alias in USE.findall(self.text):
            for item in filter(None, names.split(',')):
                old, _, new = item.strip().partition(' as ')
                self.names[new or old] = (module, old)
                if passed:
                    self.passed[new or old] = (module, old)
            if not names:
                self.modules[alias or module.split('.')[-1]] = module

    def read_definitions(self):
        current, fixity = None, {}
        for line in filter(is_code, self.text.split('\n')):
            if line.startswith('infix'):
                fixity[line.split()[-1]] = line
                continue
            head = HEAD.match(line)
            if head:
                current = self.definitions[head['name']] = Definition(self, head['name'], head['marks'], head['kind'] or '')
            if current:
                current.lines.append(line)
        for name, line in fixity.items():
            self.definitions[name].lines.append(line)

    def read_types(self):
        """The structs and enums of a source file, which antt names under `declared`."""
        for head in re.finditer(r'^(?:pub )?(?:struct|enum) (\w+)', self.text, re.M):
            d = self.definitions[head[1]] = Definition(self, head[1], 'pub', 'type')
            for line in self.text[head.start():].split('\n'):
                if line.strip() and not line.strip().startswith('//'):
                    d.lines.append(line)
                if line.startswith('}') or line.endswith(';'):
                    break

    def own(self, word):
        for d in self.definitions.values():
            if named_by(word, d.name) or word in d.constructors():
                return d

    def meaning(self, word):
        """The definition that a word in this file means, or None: a name of the logic's, or a bound one."""
        if self.own(word):
            return self.own(word)
        for name, (module, old) in self.names.items():
            if named_by(word, name):
                return self.crates.find(module, old)
        head, _, last = word.rpartition('.')
        if head and last:
            alias, _, below = head.partition('.')
            module = '.'.join(filter(None, (self.modules.get(alias, alias), below)))
            return self.crates.find(module, last) or self.meaning(head)

    def passes(self, name):
        """The definition that another file gets from this one by the name."""
        if name in self.passed:
            return self.crates.find(*self.passed[name])
        return self.own(name)


class Crates:
    def __init__(self, root):
        self.root, self.specs, self.sources = Path(root), {}, []
        for crate in sorted(p for p in (self.root / 'crates').iterdir() if p.is_dir()):
            for path in sorted(crate.glob('specs/**/*.antt')):
                module = '.'.join(path.relative_to(crate / 'specs').with_suffix('').parts)
                self.specs[crate.name, module] = File(self, path, crate.name)
            self.sources += [File(self, path, crate.name) for path in sorted(crate.glob('src/**/*.rt'))]
        for file in self.specs.values():
            file.read_definitions()
        for file in self.sources:
            file.read_types()
        self.types = {(t.file.crate, t.name): t for f in self.sources for t in f.definitions.values()}

    def definitions(self):
        return [d for f in self.specs.values() for d in f.definitions.values()]

    def find(self, module, name):
        """The definition of the name in a module such as `Rattle.CRATE.specs.FILE`."""
        known = MODULE.match(module)
        if not known:
            return None
        crate, place = known[1], known[2] or 'Lib'
        if place.startswith('declared.'):
            return self.types.get((crate, [p for p in place.split('.') if p != 'TheVariants'][-1]))
        file = self.specs.get((crate, place))
        return file.passes(name) if file else None


def reached(roots):
    todo, seen = list(roots), set()
    while todo:
        d = todo.pop()
        if d not in seen:
            seen.add(d)
            todo += d.uses() if d.kind != 'type' else d.held()
    return seen


def contracts(file):
    """Of each public function all that stands before its body."""
    lines = file.text.split('\n')
    for i, line in enumerate(lines):
        if re.match(r' *pub (extern "C" )?fn ', line):
            body = next(j for j in range(i, len(lines)) if lines[j].endswith('{') and not re.search('requires|ensures', lines[j]))
            yield '\n'.join(lines[i:body + 1])


def believed(crates, named=()):
    """The public crates (those named, or else those whose functions a static library exports under their names), their promises, their functions with
    contracts, and what these reach."""
    exports = {name for f in crates.sources for name in re.findall(r'pub extern "C" fn (\w+)', f.text)}
    public = set(named) or {f.crate for f in crates.sources if exports & set(re.findall(r'pub fn (\w+)', f.text))}
    promises = [d for d in crates.definitions() if d.file.crate in public and d.is_promise()]
    roots = [d for p in promises for d in p.file.definitions.values()]
    functions = [(f, c) for f in crates.sources if f.crate in public for c in contracts(f)]
    for file, contract in functions:
        roots += filter(None, map(file.meaning, tokens(contract)))
        roots += [t for t in crates.types.values() if t.name in re.findall(r'\w+', contract)]
    return public, promises, functions, reached(roots)
