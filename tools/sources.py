"""What the tools for readers know of code and definitions: what is declared where, and what each definition, clause and type mentions.

A name in a definition or in a clause stands for a variable that is bound round it, or else for what the file declares or one of its `use` lines brings. So a
mention is of one symbol: a definition in `specs/`, a Rust type, or something of the kit's, which is not followed.
"""
import functools
import os
import re
from collections import namedtuple

import crates

WORD = r"(?!λ)[^\W\d][\w'?×]*(?:-[\w'?×]+)*"
LEXEME = r"""(?P<text>"(?:[^"\\]|\\.)*")|(?P<space>\s+|%s[^\n]*)|(?P<number>\d\w*)|(?P<path>\.?WORD(?:\.(?:WORD|\d+))*)|(?P<sign>[<>=+*/&|!^%%-]+|.)"""
SPEC_WORDS, CLAUSE_WORDS = (re.compile((LEXEME % comment).replace("WORD", WORD), re.S) for comment in ("--", "//"))
RUST_WORDS = re.compile(
    r"""(?P<space>\s+|//[^\n]*|/\*.*?\*/)|(?P<text>b?r(\#*)".*?"\3|b?"(?:[^"\\]|\\.)*"|b?'(?:\\[^']+|[^'\\])')"""
    r"""|(?P<path>[^\W\d]\w*)|(?P<life>'\w+)|(?P<number>\d\w*)|(?P<sign>::|->|=>|.)""",
    re.S,
)
OPENING, CLOSING = "([{⟦", ")]}⟧"
# The operator that joins the steps of a `do`.
BIND = "◌>>=◌"
# Words of the language itself.
LANGUAGE = {"Type", "Unit", "tt", "record", "if", "then", "else", "do", "let", "in", "rw", "omega", "as", "Some", "None", "Ok", "Err", "_", "₁"}

# What a name stands for: something in a file of `specs/`, such a file, which goes by its path there with dots, or something in a module of Rust code.
Definition = namedtuple("Definition", "crate file name")
Book = namedtuple("Book", "crate file")
Item = namedtuple("Item", "crate module name")
Word = namedtuple("Word", "kind text at")


def words_of(text, form):
    """Returns the words and signs of a text, without spaces and comments."""
    return [Word(it.lastgroup, it[0], it.start()) for it in form.finditer(text) if it.lastgroup != "space"]


def end_of(words, at):
    """Returns the place of the bracket that closes the one at a place."""
    depth = 0
    for place in range(at, len(words)):
        depth += is_in(words[place], OPENING) - is_in(words[place], CLOSING)
        if depth == 0:
            return place
    return len(words) - 1


def is_in(word, signs):
    """Returns whether a word is one of these signs."""
    return word.kind == "sign" and word.text in signs


def is_at(words, at, text):
    """Returns whether a word stands at a place."""
    return at < len(words) and words[at].text == text


# ---- terms


class Walk:
    """A walk through terms, which knows what names are bound where, and keeps the paths that begin with no bound name."""

    def __init__(self, bound, is_known):
        self.scopes, self.paths, self.is_known = [{*bound}], [], is_known

    def bind(self, names):
        """Binds names up to the end of the bracket that the walk is in."""
        self.scopes[-1] |= {*names}

    def mention(self, text):
        """Takes note of a path."""
        if not text.startswith(".") and text.partition(".")[0] not in self.scopes[-1]:
            self.paths.append(tuple(text.split(".")))

    def go_inside(self, words):
        """Goes through a term, and forgets what it binds."""
        self.scopes.append({*self.scopes[-1]})
        self.go(words)
        self.scopes.pop()

    def go(self, words):
        """Goes through a term. What it binds outside of brackets stays bound."""
        at = 0
        while at < len(words):
            word = words[at]
            if is_in(word, OPENING):
                end = end_of(words, at)
                if not self.takes_binder(words, at, end):
                    self.go_parts(words[at + 1 : end], word.text == "{")
                at = end
            elif word.text == "λ":
                at = self.take_arguments(words, at + 1)
            elif word.text == "let" and at + 1 < len(words):
                self.bind([words[at + 1].text])
            elif is_at(words, at + 1, "←"):
                self.bind([word.text])
            elif word.kind == "path":
                self.mention(BIND if word.text == "do" else word.text)
            at += 1

    def go_parts(self, words, may_have_labels):
        """Goes through what stands in brackets: its parts are set apart by semicolons, and each may begin with the name of a field."""
        begin = depth = 0
        for at in range(len(words) + 1):
            if at == len(words) or depth == 0 and words[at].text == ";":
                is_labelled = may_have_labels and is_at(words, begin + 1, "=") and begin + 1 < at
                self.go_inside(words[begin + 2 * is_labelled : at])
                begin = at + 1
            else:
                depth += is_in(words[at], OPENING) - is_in(words[at], CLOSING)

    def takes_binder(self, words, at, end):
        """Takes a group (x y : T), and returns whether it is one."""
        place = at + 1
        while place < end and words[place].kind == "path" and "." not in words[place].text:
            place += 1
        if place == at + 1 or not is_at(words, place, ":"):
            return False
        self.go_inside(words[place + 1 : end])
        self.bind(it.text for it in words[at + 1 : place])
        return True

    def take_arguments(self, words, at):
        """Binds the arguments of a function, and returns the place of the dot behind them."""
        while at < len(words) and words[at].text != ".":
            end = end_of(words, at) if is_in(words[at], OPENING) else at
            if end == at or not self.takes_binder(words, at, end):
                self.take_pattern(words[at : end + 1])
            at = end + 1
        return at

    def take_pattern(self, words):
        """Goes through a pattern: a known word with a capital is a case, and any other is bound."""
        for at, word in enumerate(words):
            if word.kind == "path" and not is_at(words, at + 1, "="):
                if "." in word.text or word.text[0].isupper() and self.is_known(word.text):
                    self.mention(word.text)
                else:
                    self.bind([word.text])


# ---- definitions


class Declared:
    """A definition of `specs/`: its kind, its name, its lines with the comment directly above, and its text."""

    def __init__(self, kind, name, line, module):
        self.kind, self.name, self.line, self.module = kind, name, line, module
        self.lines, self.parts = {*(module[0] if module else ())}, []

    def take(self, number, text, is_new):
        """Takes in a line, which may begin an equation."""
        self.lines.add(number)
        if is_new:
            self.parts.append("")
        self.parts[-1] += text + "\n"

    def paths(self, is_known):
        """Returns what it mentions, where this tells which names the file knows."""
        walk = Walk((), is_known)
        if self.module:
            walk.go(words_of(self.module[1], SPEC_WORDS))
        for part in self.parts:
            if self.kind in ("record", "data"):
                self.go_fields(part, walk)
            else:
                self.go_equation(words_of(part, SPEC_WORDS), walk)
        return walk.paths

    def go_equation(self, words, walk):
        """Goes through a signature or an equation."""
        inner, depth = Walk(walk.scopes[-1], walk.is_known), 0
        for at, word in enumerate(words):
            depth += is_in(word, OPENING) - is_in(word, CLOSING)
            if depth == 0 and word.text in (":", "="):
                if word.text == "=":
                    inner.take_pattern(words[not self.name.startswith("◌") : at])
                inner.go(words[at + 1 :])
                break
        walk.paths += inner.paths

    def go_fields(self, text, walk):
        """Goes through a record or a data type: fields may name those before them."""
        head, *fields = re.split(r"\n(?=  [^\s-])", text)
        words = words_of(head, SPEC_WORDS)
        walk.go(words[next(at for at, it in enumerate(words) if it.text == self.name) + 1 : -1])
        for field in fields:
            words = words_of(field, SPEC_WORDS)
            colon = next((at for at, it in enumerate(words) if it.text == ":"), len(words))
            walk.go_inside(words[colon + 1 :])
            walk.bind(it.text for it in words[:colon])

    def cases(self):
        """Returns the names of a data type's cases, each with how many lines behind its first line it stands."""
        found = re.finditer(r"(?m)^  (?:pub )?([^\W\d]\w*) :", self.parts[0]) if self.kind == "data" else ()
        return {it[1]: self.parts[0][: it.start()].count("\n") for it in found}


class Spec:
    """A file of `specs/`: what it declares, and what its `use` lines bring."""

    def __init__(self, crate, path):
        self.crate, self.path, self.name = crate, path, os.path.basename(path).removesuffix(".antt")
        self.declared, self.brought, self.passed_on, self.size = {}, {}, set(), 0
        self.read(crates.text_of(path).splitlines())

    def read(self, lines):
        """Reads the file line by line."""
        self.size, above, module, now = len(lines), [], None, None
        for number, line in enumerate(lines, 1):
            indent, text = len(line) - len(line.lstrip()), line.strip()
            base = 2 if module and (indent or not text) else 0
            if not text:
                above, now = [], None
            elif now and (indent > base or text[0] in CLOSING):
                now.take(number, line[base:], False)
            elif text.startswith("--"):
                above.append(number)
            elif re.match(r"infix[lr]? ", text):
                above.append(number)
            elif re.match(r"(pub )?(use|mod) ", text):
                self.take_use(text)
                above = []
            elif re.match(r"module ", text):
                module, above, now = ({*above, number}, text.partition(" _ ")[2].removesuffix("where")), [], None
            else:
                now = self.take_head(text, number, now, module if base else None)
                now.take(number, line[base:], True)
                now.lines |= {*above}
                above = []
                module = module if base else None

    def take_use(self, text):
        """Takes in a `use` line."""
        for name, target in uses_in(text):
            self.brought[name] = target
            if text.startswith("pub "):
                self.passed_on.add(name)

    def take_head(self, text, number, now, module):
        """Returns the definition that a line begins, or goes on with."""
        found = re.match(rf"(?:(abbrev|unfoldable) )?(?:pub )?(?:(record|data) )?({WORD}|◌\S+)", text)
        if not found:
            crates.stop(f"{self.path}:{number}: what is this?")
        if now and not found[1] and (found[3] == now.name or now.name.startswith("◌")):
            return now
        self.declared[found[3]] = Declared(found[2] or found[1] or "plain", found[3], number, module)
        return self.declared[found[3]]


def uses_in(text):
    """Yields the names that a `use` line brings, each with its whole path."""
    found = re.match(r"(?:pub |ghost )*use ([^\s{;]+?)(?:\.\{(.*)\})?(?: as (\S+?))?;?$", text)
    if not found:
        return
    path = tuple(found[1].split("."))
    for name in (found[2] or "").split(","):
        if name.strip():
            old, _, new = name.strip().partition(" as ")
            yield new or old, (*path, old)
    if not found[2]:
        yield found[3] or path[-1], path


# ---- code


class Function:
    """A function of the code: its name, the words of its head, and its clauses with the names that are bound in them."""

    def __init__(self, name, line, reach, scope):
        self.name, self.line, self.reach, self.scope = name, line, reach, scope
        self.owner = self.trait = None
        self.head, self.clauses, self.generics, self.bound = [], [], set(), set()


class Shape:
    """A type or a trait of the code: what it is, its variants, and the words of its fields; of a trait its functions and ghost items."""

    def __init__(self, kind, name, line, reach, scope):
        self.kind, self.name, self.line, self.reach, self.scope = kind, name, line, reach, scope
        self.generics, self.fields, self.variants, self.functions, self.ghosts = set(), {}, {}, [], {}


class Impl:
    """An `impl`: of a trait, if it is of one, for a type; its functions and ghost items."""

    def __init__(self, trait, owner, generics, scope):
        self.trait, self.owner, self.generics, self.scope = trait, owner, generics, scope
        self.head, self.functions, self.ghosts = [], [], {}


class Scope:
    """What ghost names are brought in a module, or in an `impl` of it."""

    def __init__(self, module, above=None):
        self.module, self.above, self.brought = module, above, {}

    def find(self, name):
        """Returns the path that a name stands for, or None."""
        return self.brought.get(name) or (self.above and self.above.find(name))


class Module:
    """A module of Rust code: what it declares and what its `use` lines bring."""

    def __init__(self, crate, place, path):
        self.crate, self.place, self.path = crate, place, path
        self.uses, self.public_uses, self.modules = {}, set(), {}
        self.functions, self.shapes, self.impls, self.constants = [], {}, [], {}
        self.scope = Scope(self)


class Reader:
    """Reads the words of a file of code into a module."""

    def __init__(self, module, text):
        self.module, self.text, self.words = module, text, words_of(text, RUST_WORDS)

    def line(self, at):
        """Returns the line of a word."""
        return self.text.count("\n", 0, self.words[at].at) + 1

    def inner(self, begin, end):
        """Returns the text between two words."""
        return self.text[self.words[begin].at + len(self.words[begin].text) : self.words[end].at]

    def read(self):
        """Reads the whole file."""
        self.items(0, len(self.words), self.module.scope, self.module)

    def items(self, at, end, scope, to):
        """Reads items from a place to another, of a module, of a trait or of an `impl`."""
        reach, is_test = "", False
        while at < end:
            word = self.words[at].text
            if word == "#":
                at += 1 + is_at(self.words, at + 1, "!")
                close = end_of(self.words, at)
                is_test = is_test or "test" in [it.text for it in self.words[at:close]]
                at = close + 1
                continue
            if word == "pub":
                reach = "crate" if is_at(self.words, at + 1, "(") else "all"
                at = at + 1 if reach == "all" else end_of(self.words, at + 1) + 1
                continue
            if word in ("const", "unsafe", "async") and is_at(self.words, at + 1, "fn"):
                at += 1
                continue
            at = self.item(at, end, scope, to, reach, is_test)
            reach, is_test = "", False

    def item(self, at, end, scope, to, reach, is_test):
        """Reads the item at a place, and returns the place behind it."""
        word, name = self.words[at].text, self.words[at + 1].text if at + 1 < end else ""
        if word == "ghost":
            return self.ghost(at, scope, to)
        if word == "use":
            return self.use(at, reach)
        if word == "fn":
            return self.function(at, scope, to, reach, is_test)
        if word in ("struct", "enum", "trait", "union", "type") and to is self.module:
            return self.shape(at, scope, reach)
        if word == "impl" and to is self.module:
            return self.block(at, scope)
        if word == "mod":
            self.module.modules[name] = (reach, is_test)
            return at + 3 if is_at(self.words, at + 2, ";") else end_of(self.words, at + 2) + 1
        if word in ("const", "static"):
            self.module.constants[name] = self.line(at)
        return self.behind(at)

    def behind(self, at):
        """Returns the place behind the next semicolon, or behind the next group in braces that no equals sign stands before."""
        is_value = False
        while at < len(self.words):
            if is_at(self.words, at, ";"):
                return at + 1
            is_value = is_value or is_at(self.words, at, "=")
            if is_in(self.words[at], OPENING):
                close = end_of(self.words, at)
                if self.words[at].text == "{" and not is_value:
                    return close + 1
                at = close
            at += 1
        return at

    def ghost(self, at, scope, to):
        """Reads a ghost `use`, or a ghost item."""
        if is_at(self.words, at + 1, "use"):
            close = next(it for it in range(at, len(self.words)) if self.words[it].text == ";")
            text = " ".join(self.text[self.words[at].at : self.words[close].at].split())
            scope.brought |= dict(uses_in(text))
            return close + 1
        open_ = next(it for it in range(at, len(self.words)) if self.words[it].text == "{")
        close = end_of(self.words, open_)
        if to is not self.module:
            to.ghosts[self.words[at + 1].text] = self.inner(open_, close)
        return close + 1 + is_at(self.words, close + 1, ";")

    def use(self, at, reach):
        """Reads a `use` line of Rust."""
        close = next(it for it in range(at, len(self.words)) if self.words[it].text == ";")
        for name, path in self.paths(at + 1, close, ()):
            self.module.uses[name] = path
            if reach == "all":
                self.module.public_uses.add(name)
        return close + 1

    def paths(self, at, end, before):
        """Yields the names that a path of a `use` line brings, each with its whole path."""
        path = before
        while at < end:
            word = self.words[at].text
            if word == "{":
                close = end_of(self.words, at)
                begin = at + 1
                while begin < close:
                    comma = begin
                    while comma < close and self.words[comma].text != ",":
                        comma = end_of(self.words, comma) + 1 if self.words[comma].text == "{" else comma + 1
                    yield from self.paths(begin, comma, path)
                    begin = comma + 1
                return
            if word == "as":
                yield self.words[at + 1].text, path
                return
            path = path if word in ("::", "self") and path else (*path, word) if word != "::" else path
            at += 1
        if path:
            yield path[-1], path

    def generics(self, at):
        """Returns the names between angle brackets, where they begin at a place, and the place behind them."""
        if not is_at(self.words, at, "<"):
            return set(), at
        found, depth, is_name = set(), 0, True
        while at < len(self.words):
            text = self.words[at].text
            if text in ("<", ">"):
                depth += 1 if text == "<" else -1
                is_name = depth == 1 and text == "<"
            elif depth == 1 and is_name and self.words[at].kind == "path" and text != "const":
                found.add(text)
                is_name = False
            elif depth == 1 and text == ",":
                is_name = True
            at += 1
            if depth == 0:
                break
        return found, at

    def function(self, at, scope, to, reach, is_test):
        """Reads a function with its clauses, and leaves out its body. One of a trait reaches as far as the trait."""
        made = Function(self.words[at + 1].text, self.line(at), "all" if isinstance(to, Shape) or getattr(to, "trait", None) else reach, scope)
        made.owner, made.trait = (to.owner, to.trait) if isinstance(to, Impl) else (None, None)
        made.generics, place = self.generics(at + 2)
        made.generics |= getattr(to, "generics", set())
        begin = place
        while self.words[place].text not in ("requires", "ensures", "{", ";"):
            place = end_of(self.words, place) + 1 if is_in(self.words[place], "([") else place + 1
        made.head = self.words[at + 2 : place]
        made.bound = {"result", "self", "Self", *made.generics, *self.parameters(begin)}
        while self.words[place].text in ("requires", "ensures"):
            open_ = place + 1 if is_at(self.words, place + 1, "{") else place + 2
            close = end_of(self.words, open_)
            made.clauses.append(self.inner(open_, close))
            place = close + 1
        if not is_test:
            to.functions.append(made)
        return place + 1 if is_at(self.words, place, ";") else end_of(self.words, place) + 1

    def parameters(self, at):
        """Returns the names of the parameters of a function, whose list begins at a place."""
        close, found, depth = end_of(self.words, at), set(), 0
        for place in range(at, close):
            depth += is_in(self.words[place], OPENING) - is_in(self.words[place], CLOSING)
            if depth == 1 and self.words[place].kind == "path" and is_at(self.words, place + 1, ":"):
                found.add(self.words[place].text)
        return found

    def shape(self, at, scope, reach):
        """Reads a type or a trait."""
        made = Shape(self.words[at].text, self.words[at + 1].text, self.line(at), reach, scope)
        self.module.shapes[made.name] = made
        made.generics, place = self.generics(at + 2)
        made.fields[""] = self.words[at + 2 : place]
        while self.words[place].text not in ("{", "(", ";", "="):
            made.fields[""].append(self.words[place])
            place += 1
        if is_at(self.words, place, ";"):
            return place + 1
        if is_at(self.words, place, "="):
            close = self.behind(place)
            made.fields["="] = self.words[place:close]
            return close
        close = end_of(self.words, place)
        if made.kind == "trait":
            made.scope = Scope(self.module, scope)
            self.items(place + 1, close, made.scope, made)
        elif made.kind == "enum":
            self.variants(place + 1, close, made)
        else:
            self.fields(place + 1, close, made)
        return close + 1 + (is_at(self.words, close + 1, ";") and self.words[place].text == "(")

    def fields(self, at, end, made):
        """Reads the fields of a struct. A ghost one says what holds of the others."""
        count = 0
        for begin, close in self.parted(at, end):
            is_ghost = any(it.text == "ghost" for it in self.words[begin:close][:3])
            colon = next((it for it in range(begin, close) if self.words[it].text == ":"), None)
            name = self.words[colon - 1].text if colon else str(count)
            if is_ghost:
                made.ghosts[name] = self.inner(colon + 1, end_of(self.words, colon + 1))
            else:
                made.fields[name] = self.words[colon + 1 if colon else begin : close]
            count += 1

    def variants(self, at, end, made):
        """Reads the variants of an enum."""
        for begin, close in self.parted(at, end):
            name = self.words[begin].text
            made.variants[name] = self.line(begin)
            made.fields[name] = [it for place, it in enumerate(self.words[begin + 1 : close], begin + 1) if not is_at(self.words, place + 1, ":")]

    def parted(self, at, end):
        """Yields where each part begins and ends that commas set apart, without its attributes."""
        while at < end:
            while is_at(self.words, at, "#"):
                at = end_of(self.words, at + 1) + 1
            begin, depth = at, 0
            while at < end and (depth or self.words[at].text != ","):
                depth += {"<": 1, ">": -1}.get(self.words[at].text, 0)
                at = end_of(self.words, at) + 1 if is_in(self.words[at], OPENING) else at + 1
            if begin < at:
                yield begin, at
            at += 1

    def block(self, at, scope):
        """Reads an `impl`."""
        generics, place = self.generics(at + 1)
        open_ = next(it for it in range(place, len(self.words)) if self.words[it].text == "{")
        words = self.words[place:open_]
        where = next((it for it, word in enumerate(words) if word.text == "where"), len(words))
        for_ = next((it for it, word in enumerate(words[:where]) if word.text == "for"), None)
        trait = self.name(words[:for_]) if for_ is not None else None
        made = Impl(trait, self.name(words[for_ + 1 if for_ is not None else 0 : where]), generics, Scope(self.module, scope))
        made.head = words
        self.module.impls.append(made)
        close = end_of(self.words, open_)
        self.items(open_ + 1, close, made.scope, made)
        return close + 1

    @staticmethod
    def name(words):
        """Returns the path that a type begins with."""
        path = ()
        for word in words:
            if word.kind == "path" and word.text not in ("dyn", "mut"):
                path = (*path, word.text)
            elif word.text != "::" and word.text not in "&" and word.kind != "life":
                break
        return path


# ---- the repository


class Sources:
    """All definitions and all code of a repository."""

    def __init__(self, root=crates.ROOT):
        self.repository = crates.Crates(root)
        self.specs, self.modules, self.unknown = {}, {}, set()
        for crate in self.repository.names:
            folder = self.repository.folder(crate)
            for path in crates.files_below(f"{folder}/specs"):
                # (a file beside a folder of its name only lists what is in there)
                if path.endswith(".antt") and not os.path.isdir(path.removesuffix(".antt")):
                    file = os.path.relpath(path, f"{folder}/specs").removesuffix(".antt").replace(os.sep, ".")
                    self.specs[Book(crate, file)] = Spec(crate, path)
            for path in crates.files_below(f"{folder}/src"):
                if path.endswith(".rt"):
                    self.read_code(crate, path, f"{folder}/src")
        self.resolved = functools.cache(self.resolved)

    def read_code(self, crate, path, folder):
        """Reads a file of code."""
        place = tuple(os.path.relpath(path, folder).removesuffix(".rt").split(os.sep))
        place = () if place in (("lib",), ("main",)) else place
        module = Module(crate, place, path)
        self.modules[crate, place] = module
        Reader(module, crates.text_of(path)).read()

    # -- what a name stands for

    def ghost_target(self, path):
        """Returns what the path of a `use` line of definitions stands for, or None where it is of the kit or of a proof."""
        if len(path) < 4 or path[0] != "Rattle" or path[1] not in self.repository.lines or path[2] != "specs":
            return None
        crate, rest = path[1], path[3:]
        if rest[0] in ("declared", "contracts"):
            return self.generated(crate, rest[1:])
        for count in range(len(rest), 0, -1):
            book = Book(crate, ".".join(rest[:count]))
            if book in self.specs:
                return book if count == len(rest) else self.defined(*book, rest[count])
        return None

    def generated(self, crate, path):
        """Returns the Rust type that a path below `declared` is of."""
        for count in range(len(path), 0, -1):
            module = self.modules.get((crate, path[: count - 1]))
            if module and path[count - 1] in module.shapes:
                return Item(crate, path[: count - 1], path[count - 1])
        return None

    def defined(self, crate, file, name):
        """Returns the definition of a name that a file has, or passes on."""
        spec = self.specs.get(Book(crate, file))
        if not spec:
            return None
        if name in spec.declared:
            return Definition(crate, file, name)
        for owner in spec.declared.values():
            if name in owner.cases():
                return Definition(crate, file, owner.name)
        return self.ghost_target(spec.brought[name]) if name in spec.brought else None

    def resolved(self, crate, place, path):
        """Returns the item that a path of Rust stands for in a module, or None where it is of the kit."""
        module, name = self.modules.get((crate, place)), path[0]
        if module is None:
            return None
        if len(path) == 1 and (name in module.shapes or name in module.constants or any(it.name == name for it in module.functions)):
            return Item(crate, place, name)
        if name in module.shapes:
            return Item(crate, place, name)
        if name in module.uses and module.uses[name] != path[:1]:
            return self.absolute(crate, place, (*module.uses[name], *path[1:]))
        return self.absolute(crate, place, path) if len(path) > 1 else None

    def absolute(self, crate, place, path):
        """Returns the item that a path stands for which begins with a crate, a module, `crate`, `self` or `super`."""
        head, rest = path[0], path[1:]
        if not rest:
            return None
        if head in ("crate", "self"):
            return self.below(crate, () if head == "crate" else place, rest)
        if head == "super":
            return self.below(crate, place[:-1], rest)
        if head in self.modules[crate, place].modules:
            return self.below(crate, (*place, head), rest)
        if head in self.repository.lines:
            return self.below(head, (), rest)
        return self.resolved(crate, place, path[:1])

    def below(self, crate, place, path):
        """Returns the item of a path below a module."""
        while len(path) > 1 and (crate, (*place, path[0])) in self.modules:
            place, path = (*place, path[0]), path[1:]
        return self.resolved(crate, place, path)

    def shape(self, item):
        """Returns the type or trait of an item, or None where it is something else."""
        return item and self.modules[item.crate, item.module].shapes.get(item.name)

    # -- what something mentions

    def of_definition(self, definition):
        """Yields what a definition mentions."""
        spec = self.specs[Book(definition.crate, definition.file)]
        for path in spec.declared[definition.name].paths(lambda name: name in spec.brought or self.defined(definition.crate, definition.file, name)):
            if path[0] in spec.declared:
                target = Definition(definition.crate, definition.file, path[0])
            elif path[0] in spec.brought:
                target = self.ghost_target(spec.brought[path[0]])
            else:
                target = self.defined(definition.crate, definition.file, path[0])
                if target is None and path[0] not in LANGUAGE:
                    self.unknown.add((path[0], spec.path, definition.name))
            yield from self.inside(target, path)

    def inside(self, target, path):
        """Yields a target, or what of a file of definitions a path names."""
        if isinstance(target, Book):
            target = self.defined(*target, path[1]) if len(path) > 1 else None
        if target:
            yield target

    def of_term(self, text, scope, bound):
        """Yields what a clause or another term in code mentions."""
        walk = Walk(bound, scope.find)
        walk.go(words_of(text, CLAUSE_WORDS))
        for path in walk.paths:
            used = scope.find(path[0])
            if used:
                yield from self.inside(self.ghost_target(used), path)
                continue
            item = self.resolved(scope.module.crate, scope.module.place, path[:1])
            if item:
                yield item
            elif path[0] not in scope.module.uses and path[0] not in LANGUAGE:
                self.unknown.add((path[0], scope.module.path, text[:60]))

    def of_words(self, words, scope, but=()):
        """Yields the types and traits that words of Rust name."""
        module, at = scope.module, 0
        while at < len(words):
            if words[at].kind != "path":
                at += 1
                continue
            path = (words[at].text,)
            while is_at(words, at + 1, "::") and at + 2 < len(words) and words[at + 2].kind == "path":
                path, at = (*path, words[at + 2].text), at + 2
            item = None if path[0] in but else self.resolved(module.crate, module.place, path)
            if self.shape(item):
                yield item
            at += 1

    @functools.cached_property
    def models(self):
        """The `impl Model` of each type that has one."""
        found = {}
        for module in self.modules.values():
            for it in module.impls:
                if it.trait and it.trait[-1] == "Model":
                    found[self.resolved(module.crate, module.place, it.owner)] = it
        return found

    def functions(self):
        """Yields each function that is not in a test, with its module."""
        for module in self.modules.values():
            if not self.is_test(module):
                for owner in (module, *module.shapes.values(), *module.impls):
                    for it in owner.functions:
                        yield module, owner, it

    def is_test(self, module):
        """Returns whether a module is one of tests."""
        return any("test" in it for it in module.place)
