"""The statements of the repository: which definitions of `crates/*/specs` and which types of `crates/*/src` a clause reaches.

It reads the texts of antt and Rattle as far as names go: headers, equations, binders, `use` lines, clauses. It proves nothing
and checks nothing; a text that the toolchain refuses may be read in any way.
"""
import functools
import glob
import os
import re

TOKEN = re.compile(r'"(?:[^"\\]|\\.)*"|\[\]|[(){}\[\],;.]|[^\s(){}\[\],;."]+')
DEFINITION = re.compile(r"(?:abbrev |unfoldable )?(?:pub )?(?:(record|data) (\S+)|([^\s(){}\[\],;.:]+) :)")
LOCAL_USE = re.compile(r"^(?:pub )?use (\S+?)(?:\.\{([^}]*)\})?(?: as (\S+))?$", re.M)
GHOST_USE = re.compile(r"\bghost use (\S+?)(?:\.\{([^}]*)\})?(?: as (\S+))?;")
CLAUSE = re.compile(r"\s*(requires|ensures|ghost)\*?(?:\s+(\w+))?\s*(?::\s*)?\{")
ITEM = re.compile(r"^(?:pub(?:\([^)]*\))? )?(?:unsafe )?(struct|enum|trait|const|static|impl|type|fn)\b", re.M)
GHOST_MEMBER = re.compile(r"\bghost (\w+)\s*[:=]\s*\{")
CLOSING = {"(": ")", "{": "}", "[": "]"}
# Constructors of the kit that a pattern may have and that don't begin with a capital.
KIT_CONSTRUCTORS = {"zero", "suc", "true", "false", "[]", "pos", "negsuc", "tt", "alloc_error"}
# What antt has without a `use` line.
BUILT_IN = set("Type record where elim as let in do then else unfolding × ¬ ⊥ absurd Unit tt IsProp IsSet Dec yes no Discrete".split())
# Bounds of the kit without ghost members.
MARKERS = {"Drop", "Send", "Sync", "Sized", "Copy"}
# The constructors of the files of specs/ that were read, as pairs of module and name.
CONSTRUCTORS = set()


class Lost(Exception):
    """A name that is cited and isn't found."""


def read(path):
    with open(path, encoding="utf-8") as text:
        return text.read()


@functools.cache
def read_lines(path):
    return read(path).split("\n")


def crates():
    """The crates from which others are built, without those that have tests alone."""
    return sorted(it for it in os.listdir("crates") if not it.endswith("_tests"))


def first_sentence(text, mark):
    """The first sentence of the comment at the head of a file, whose lines begin with this mark."""
    lines = []
    for line in text.split("\n"):
        if not line.startswith(mark):
            break
        lines.append(line[len(mark) :].strip())
    said = " ".join(lines)
    end = re.search(r"\.(?= [A-Z`]|$)", said)
    return said[: end.end()] if end else said


class Node:
    """A definition, a type, a constant or a function: the lines that a reader has to read of it, and what these name."""

    def __init__(self, path, name, lines, names, text=None):
        self.path, self.name, self.lines = path, name, frozenset(lines)
        # a function from nothing to what is named: nodes, and words of the kit as pairs of module and name
        self.names = functools.cache(names)
        # the definition of which this is a part, where some fields of a record are left out
        self.whole = self
        # what it says, where that isn't its lines
        self.text = text

    def __repr__(self):
        return f"{self.path}:{self.name}"


# ---- terms


class Names:
    """The names that terms of a file or a block see: `direct` ones, and those behind a name with a dot."""

    def __init__(self):
        self.direct, self.behind = {}, {}

    def use(self, path, items, alias):
        """Adds what a `use` line brings."""
        if items is None:
            self.behind[alias or path.split(".")[-1]] = path
            return
        for item in filter(None, (it.strip() for it in items.split(","))):
            name, _, other = item.partition(" as ")
            self.add(other or name.split(".")[-1], (path, name))

    def add(self, name, target):
        self.direct[name] = target
        if "◌" in name:
            for part in name.split("◌"):
                if part:
                    self.direct.setdefault(part, target)
                    break


def closing(tokens, at):
    """Where the bracket that opens here is closed."""
    depth = 0
    for i in range(at, len(tokens)):
        if tokens[i] in CLOSING:
            depth += 1
        elif tokens[i] in CLOSING.values():
            depth -= 1
            if depth == 0:
                return i
    return len(tokens) - 1


def is_name(token):
    return token not in {*CLOSING, *CLOSING.values(), ",", ";", ".", ":", "=", "→", "_"} and token[0] != '"'


class Walk:
    """A walk through a term: it finds the names that no binder of the term hides."""

    def __init__(self, names, found):
        self.names, self.found, self.unknown = names, found, set()

    def named(self, name):
        self.found.append(self.names.direct[name])

    def path(self, tokens, at):
        """A name at this place with what stands behind its dots; answers where it ends."""
        parts, end = [tokens[at]], at + 1
        while end + 1 < len(tokens) and tokens[end] == "." and is_name(tokens[end + 1]):
            parts.append(tokens[end + 1])
            end += 2
        if parts[0] in self.names.behind and len(parts) > 1:
            self.found.append((self.names.behind[parts[0]], parts[1]))
        elif parts[0] == "Rattle":
            self.found.append((".".join(parts[:-1]), parts[-1]))
        elif parts[0] in self.names.direct:
            self.named(parts[0])
            if len(parts) > 1:
                self.found.append((self.names.direct[parts[0]], parts[1], "member"))
        elif parts[0] not in BUILT_IN and not parts[0][0].isdigit():
            self.unknown.add(parts[0])
        return end

    def binders(self, tokens, at, bound):
        """The binders of a `λ` up to its dot; answers where its body begins."""
        while at < len(tokens) and tokens[at] != ".":
            if tokens[at] in "({":
                end = closing(tokens, at)
                inner = tokens[at + 1 : end]
                if ":" in inner:
                    self.term(inner[inner.index(":") + 1 :], bound)
                    inner = inner[: inner.index(":")]
                bound |= {it for it in inner if is_name(it)}
                at = end + 1
            else:
                bound.add(tokens[at])
                at += 1
        return at + 1

    def parameters(self, tokens, bound):
        """The parameters in a head, each in brackets with its type and bound from there on; and the type behind them."""
        at = 0
        while at < len(tokens):
            if tokens[at] == ":":
                return self.term(tokens[at + 1 :], bound)
            at = self.bracket(tokens, at, bound) if tokens[at] in CLOSING else at + 1
        return None

    def term(self, tokens, bound):
        """A term in which these names are bound already."""
        start, bound, at = frozenset(bound), set(bound), 0
        while at < len(tokens):
            token = tokens[at]
            if token == "λ":
                at = self.binders(tokens, at + 1, bound)
            elif token == "let":
                end = tokens.index("=", at) if "=" in tokens[at:] else at + 1
                head = tokens[at + 1 : end]
                if ":" in head:
                    self.term(head[head.index(":") + 1 :], bound)
                    head = head[: head.index(":")]
                bound |= {it for it in head if is_name(it)}
                at = end + 1
            elif token in CLOSING:
                at = self.bracket(tokens, at, bound)
            elif token in (",", ";", "|"):
                bound = set(start)
                at += 1
            elif token == ".":
                at += 2
            elif not is_name(token) or token in bound:
                at += 1
            else:
                at = self.path(tokens, at)

    def bracket(self, tokens, at, bound):
        """What stands in brackets: a typed binder of what follows, the cases of an `elim`, or a term; answers where it ends."""
        end = closing(tokens, at)
        inner = tokens[at + 1 : end]
        names = 0
        while names < len(inner) and is_name(inner[names]):
            names += 1
        if tokens[at] != "[" and 0 < names < len(inner) and inner[names] == ":":
            self.term(inner[names + 1 :], bound)
            bound |= set(inner[:names])
        elif tokens[at] == "[" and "↦" in inner:
            for case in split(inner, "|"):
                self.case(case, "↦", bound)
        elif tokens[at] == "{":
            for field in split(inner, ";"):
                is_labelled = len(field) > 1 and field[1] == "="
                self.term(field[2:] if is_labelled else field, bound)
        else:
            self.term(inner, bound)
        return end + 1

    def case(self, tokens, sign, bound):
        """A pattern, this sign and a body; of an equation the pattern begins behind the name."""
        depth = 0
        for end, token in enumerate(tokens):
            depth += (token in CLOSING) - (token in CLOSING.values())
            if token == sign and depth == 0:
                break
        else:
            return self.term(tokens, bound)
        bound, at = set(bound), 0
        while at < end:
            token = tokens[at]
            if not is_name(token):
                at += 1
            elif at + 1 < end and tokens[at + 1] == ".":
                at = self.path(tokens, at)
            elif self.is_constructor(token):
                self.named(token)
                at += 1
            else:
                bound.add(token)
                at += 1
        return self.term(tokens[end + 1 :], bound)

    def is_constructor(self, name):
        if name not in self.names.direct:
            return False
        if self.names.direct[name] in CONSTRUCTORS:
            return True
        return name[0].isupper() or name in KIT_CONSTRUCTORS or not (name[0].isalpha() or name[0] == "_")


def split(tokens, sign):
    """The parts between signs that stand in no brackets."""
    parts, depth = [[]], 0
    for token in tokens:
        depth += (token in CLOSING) - (token in CLOSING.values())
        if token == sign and depth == 0:
            parts.append([])
        else:
            parts[-1].append(token)
    return parts


def tokens_of(text):
    return TOKEN.findall("\n".join(re.sub(r"(^|\s)--(\s.*|$)", "", line) for line in text.split("\n")))


# ---- files of specs


class Spec:
    """A file of `specs/`: its definitions in order, by their names, and the names that they see."""

    def __init__(self, crate, path):
        self.crate, self.path, self.text = crate, path, read(path)
        self.lines = self.text.split("\n")
        self.names = Names()
        for path_, items, alias in LOCAL_USE.findall(self.text):
            self.names.use(path_, items or None, alias)
        self.own = f"Rattle.{crate}.specs." + path[len(f"crates/{crate}/specs/") : -len(".antt")].replace("/", ".")
        self.nodes, self.owner, self.records = {}, {}, {}
        for block in self.blocks():
            self.define(block)
        for name in self.owner:
            self.names.add(name, (self.own, name))

    def blocks(self):
        """The definitions in their order; one of a section is indented and has the section's parameters."""
        found, comment, section = [], None, ""
        for i, line in enumerate(self.lines):
            text, level = line.strip(), len(line) - len(line.lstrip(" "))
            if text.startswith("--"):
                comment = i if comment is None else comment
                continue
            if text and level == 0:
                section = text if text.startswith("module _") else ""
            is_head = text and not re.match(r"(pub )?(use|mod)\b|module\b", text) and level == (2 if section else 0)
            at = DEFINITION.match(text) if is_head else None
            if at and not any(it.name == (at[2] or at[3]) for it in found):
                found.append(Definition(at[2] or at[3], at[1], i if comment is None else comment, i, level, section))
            elif found and text and text != section:
                found[-1].end = i + 1
            comment = None
        return found

    def define(self, block):
        """Adds the node of a definition, and the names of its constructors."""
        lines = [i for i in range(block.start, block.end) if self.lines[i].strip()]
        self.owner[block.name] = block.name
        if block.kind == "data":
            for line in self.lines[block.first + 1 : block.end]:
                at = re.match(r"\s+(\S+(?: \S+)*?) :", line)
                for one in at[1].split() if at else ():
                    self.owner[one] = block.name
                    CONSTRUCTORS.update({(self.own, one), (f"{self.own}.{block.name}", one)})
        self.nodes[block.name] = Node(self.path, block.name, lines, lambda: self.named_by(block))
        if block.kind == "record":
            self.records[block.name] = block

    @functools.cache
    def with_fields(self, name, fields):
        """The node of a record with these fields alone."""
        block, whole = self.records[name], self.nodes[name]
        parts, at, left = self.parts(block), block.first, set()
        for part in parts:
            if part is not parts[0] and not self.is_of(part, fields):
                left.update(range(at, at + len(part)))
            at += len(part)
        node = Node(self.path, name, whole.lines - left, lambda: self.named_by(block, fields))
        node.whole = whole
        return node

    def is_of(self, part, fields):
        """Whether a field's lines begin with one of these names."""
        tokens = tokens_of("\n".join(part))
        return ":" not in tokens or not fields.isdisjoint(tokens[: tokens.index(":")])

    def named_by(self, block, fields=None):
        """What a definition names, in its section's parameters, its signature and its equations, constructors or fields; of
        these those alone that are given."""
        found = []
        walk, bound = Walk(self.names, found), set()
        if block.section:
            walk.parameters(tokens_of(block.section)[2:-1], bound)
        head, *parts = self.parts(block)
        parts = [tokens_of("\n".join(part)) for part in parts if fields is None or self.is_of(part, fields)]
        head = tokens_of("\n".join(head))
        if block.kind is None:
            helpers = (re.match(r"\s+([^\s(){}]+) :", line) for line in self.lines[block.first + 1 : block.end])
            bound |= {at[1] for at in helpers if at}
        if block.kind is None:
            walk.term(head[head.index(":") + 1 :], bound)
        else:
            walk.parameters(head[head.index(block.name) + 1 :], bound)
        for part in parts:
            if block.kind is None:
                walk.case(part[1:], "=", bound)
            elif ":" in part:
                walk.term(part[part.index(":") + 1 :], bound)
                bound |= set(part[: part.index(":")]) - {"pub", "open"} if block.kind == "record" else set()
        if walk.unknown:
            raise Lost(f"{self.path}: {block.name} has names that aren't known: {', '.join(sorted(walk.unknown))}")
        return found

    def parts(self, block):
        """The lines of a definition's head, and of each equation, field or constructor."""
        parts = [[]]
        for line in self.lines[block.first : block.end]:
            level = len(line) - len(line.lstrip(" "))
            is_new = level == block.level + 2 if block.kind else level == block.level and line.split()[:1] == [block.name]
            if is_new and parts[0]:
                parts.append([])
            parts[-1].append(line)
        return parts


class Definition:
    """Where a definition stands: the line at which its comment begins, its first line, and the one behind its last."""

    def __init__(self, name, kind, start, first, level, section):
        self.name, self.kind, self.start, self.first, self.end = name, kind, start, first, first + 1
        self.level, self.section = level, section


# ---- files of src


def masked(text):
    """The text with its comments, its strings and its characters blanked out, in as many characters."""
    pattern = re.compile(r'//[^\n]*|b?"(?:[^"\\]|\\.)*"|b?\'(?:\\[^\']*|[^\\\'\s])\'', re.S)
    return pattern.sub(lambda at: re.sub(r"[^\n]", " ", at[0]), text)


def balanced(text, at):
    """Where the brace that opens here is closed."""
    depth = 0
    for i in range(at, len(text)):
        depth += (text[i] == "{") - (text[i] == "}")
        if depth == 0:
            return i
    return len(text) - 1


class Function:
    """A function's head: its name, its signature, its clauses by name, and what it stands in."""

    def __init__(self, source, at, block):
        self.source, self.name, self.block = source, at[1], block
        mask = source.mask
        line = mask.rfind("\n", 0, at.start()) + 1
        self.is_public = mask[line : at.start()].lstrip().startswith("pub ") or (block is not None and block.kind == "trait")
        end, depth = at.end(), 0
        while not (depth == 0 and (mask[end] in "{;" or re.match(r"(requires|ensures|ghost)\b", mask[end:]) and mask[end - 1].isspace())):
            depth += (mask[end] in "([") - (mask[end] in ")]")
            end += 1
        self.signature = mask[at.start() : end]
        self.start, self.clauses = line, []
        self.heads = []
        while clause := CLAUSE.match(mask, end):
            close = balanced(mask, clause.end() - 1)
            self.clauses.append((clause[1], clause[2] or "", source.text[clause.end() : close]))
            self.heads.append(re.sub(r"\n {4}", "\n", source.text[clause.start() : close + 1].strip()))
            end = close + 1
        self.end = end

    def told(self):
        """The signature on one line."""
        line = re.sub(r"\s+", " ", self.signature).strip()
        return "fn " + re.sub(r",? ([)>])", r"\1", re.sub(r"([(<]) ", r"\1", line.removeprefix("fn ")))

    def bound(self):
        return set(re.findall(r"(\w+)\s*:(?!:)", self.signature)) | {"self", "result"}


class Block:
    """An item of a file of `src/`: a type, a constant, a trait or an impl."""

    def __init__(self, source, at):
        mask = source.mask
        self.kind, self.at = at[1], at.start()
        brace = re.compile(r"[{;]").search(mask, at.end())
        if self.kind in ("const", "static", "type"):
            # (that of an array's length ends no line)
            brace = re.compile(r";$", re.M).search(mask, at.end())
        self.body = brace.start()
        self.end = balanced(mask, brace.start()) if mask[brace.start()] == "{" else brace.start()
        self.header = mask[at.end() : brace.start()]
        self.is_public = mask[at.start() :].startswith("pub ")
        names = re.sub(r"<[^<>]*>", "", re.sub(r"<[^<>]*>", "", self.header))
        if self.kind == "impl":
            trait, _, what = names.strip().partition(" for ")
            self.trait, self.name = (trait.strip(), what.strip()) if what else (None, trait.strip())
            self.name = re.split(r"\s", self.name.lstrip("&'a ") or self.name)[0]
        else:
            self.trait, self.name = None, re.findall(r"\w+", names)[0]


class Source:
    """A file of `src/`: its items, its functions and its `use` lines."""

    def __init__(self, crate, path):
        self.crate, self.path, self.text = crate, path, read(path)
        self.mask = masked(self.text)
        self.blocks, last = [], -1
        for at in ITEM.finditer(self.mask):
            if at.start() > last and at[1] != "fn":
                self.blocks.append(Block(self, at))
                last = self.blocks[-1].end
        self.functions = [Function(self, at, self.block_at(at.start())) for at in re.finditer(r"\bfn (\w+)", self.mask) if self.is_head(at)]
        self.items = {it.name: it for it in self.blocks if it.kind != "impl"}

    def is_head(self, at):
        line = self.mask[self.mask.rfind("\n", 0, at.start()) + 1 : at.start()]
        return re.fullmatch(r"(?:    )?(?:pub(?:\([^)]*\))? )?(?:const )?(?:unsafe )?", line) is not None

    def block_at(self, place):
        return next((it for it in self.blocks if it.body < place <= it.end), None)

    def ghost_uses(self, block):
        """The names that clauses at this block see by its lines and by the file's."""
        names = Names()
        for at in GHOST_USE.finditer(self.mask):
            inside = self.block_at(at.start())
            if inside is None or inside is block:
                names.use(at[1], at[2], at[3])
        return names

    @functools.cache
    def uses(self):
        """What each name of a `use` line of Rust stands for, as a path."""
        found = {}
        for at in re.finditer(r"^\s*(?:pub(?:\([^)]*\))? )?use ([^;]+);", self.mask, re.M):
            for path, alias in expand(re.sub(r"\s+", " ", at[1])):
                found[alias] = path
        return found

    def line_of(self, place):
        return self.text.count("\n", 0, place)

    def doc_start(self, line):
        """Where the comment and the attributes above a line begin."""
        lines = self.text.split("\n")
        while line and re.match(r"\s*(//|#\[)", lines[line - 1]):
            line -= 1
        return line


def expand(tree):
    """The paths of a tree of `use`, each with the name that it brings."""
    tree = tree.strip()
    brace = tree.find("{")
    if brace < 0:
        path, _, alias = tree.partition(" as ")
        parts = path.split("::")
        return [(parts, alias or parts[-1])]
    front, inner, depth, part, found = tree[:brace], tree[brace + 1 : tree.rfind("}")], 0, "", []
    for sign in inner + ",":
        depth += (sign == "{") - (sign == "}")
        if sign == "," and depth == 0:
            found += expand(front + part.strip()) if part.strip() else []
            part = ""
        else:
            part += sign
    return found


# ---- all of them


class Statements:
    """All spec files and all sources, and what each name means."""

    def __init__(self):
        self.crates = crates()
        self.specs, self.sources, self.rust = {}, {}, {}
        for crate in self.crates:
            for path in sorted(glob.glob(f"crates/{crate}/specs/**/*.antt", recursive=True)):
                if not path.endswith(("/Lib.antt", "/inner.antt")):
                    spec = Spec(crate, path)
                    self.specs[spec.own] = spec
            for path in sorted(glob.glob(f"crates/{crate}/src/**/*.rt", recursive=True)):
                self.sources[path] = Source(crate, path)
        self.values = self.records_seen()

    # -- names of antt

    def targets(self, node):
        """What a node names: nodes, and words of the kit."""
        nodes, words = [], []
        for target in node.names():
            found = self.resolve(target)
            if isinstance(found, Node):
                nodes.append(found)
            elif found:
                words.append(found)
        return nodes, words

    def resolve(self, target):
        """The node of a target, or a word of the kit."""
        if isinstance(target, Node):
            return target
        if len(target) == 3:
            owner = self.resolve(target[0])
            return self.member(owner, target[1]) if isinstance(owner, Node) else None
        module, name = target
        while "." in name:
            front, _, name = name.partition(".")
            module = f"{module}.{front}"
        # the constructors of a type stand in a module of its name too
        spec = self.specs.get(module) or self.specs.get(module.rpartition(".")[0])
        parts = module.split(".")
        if spec is not None:
            found = spec.nodes.get(spec.owner.get(name, name))
            if found is None and name in spec.names.direct:
                # a `pub use` passes it on
                return self.resolve(spec.names.direct[name])
        elif parts[0] == "Rattle" and parts[1] in self.crates:
            if name == "the_type":
                # what the toolchain knows of a type, as the numbers of its variants
                name = parts[-1]
            found = self.declared(parts[1], parts[4:], name) if parts[3] in ("declared", "contracts") else None
        else:
            return (module, name)
        if found is None:
            raise Lost(f"{name} of {module} isn't found")
        return found

    def declared(self, crate, parts, name):
        """The Rust type or constant that a generated module means."""
        if parts and parts[-1] in ("TheVariants", "TheInside"):
            name, parts = parts[-2], parts[:-2]
        elif parts and parts[-1] in ("TheConstants", name):
            parts = parts[:-1]
        elif parts and name == "Ghosts":
            # the members of a trait, as one record
            name, parts = parts[-1], parts[:-1]
        return self.item(crate, f"crates/{crate}/src/{'/'.join(parts) or 'lib'}.rt", name)

    # -- names of Rust

    def item(self, crate, path, name, seen=()):
        """The node of an item of a file of `src/`, also where the file passes it on."""
        source = self.sources.get(path)
        if source is None or (path, name) in seen:
            return None
        if name in source.items:
            return self.rust_node(source, source.items[name])
        used = source.uses().get(name)
        return self.at_path(source, used, (*seen, (path, name))) if used else None

    def at_path(self, source, parts, seen=()):
        """The node of a path of Rust that stands in this file."""
        crate = source.crate
        is_own = source.path.endswith("/lib.rt") and f"crates/{crate}/src/{parts[0]}.rt" in self.sources
        if parts[0] == "crate":
            parts = parts[1:]
        elif not is_own and parts[0] in self.crates:
            crate, parts = parts[0], parts[1:]
        elif not is_own:
            return None
        if not parts:
            return None
        for path in (f"crates/{crate}/src/{'/'.join(parts[:-1]) or 'lib'}.rt", f"crates/{crate}/src/lib.rt"):
            found = self.item(crate, path, parts[-1], seen)
            if found:
                return found
        return None

    def rust_names(self, source, text):
        """The nodes of the types and constants that a text of Rust names."""
        found = []
        for name in dict.fromkeys(re.findall(r"\b[A-Z]\w*", text)):
            node = self.item(source.crate, source.path, name)
            if node:
                found.append(node)
        return found

    def antt_names(self, source, block):
        """The names that a clause at this block sees: what its file brings, and its types and constants."""
        names = source.ghost_uses(block)
        for name in {*source.items, *source.uses()} - set(names.direct):
            if name[:1].isupper():
                node = self.item(source.crate, source.path, name)
                if node:
                    names.direct[name] = node
        return names

    def in_clause(self, source, block, text, bound):
        """What a term of a clause names."""
        found = []
        lines = "\n".join(re.sub(r"^\s*//.*", "", line) for line in text.split("\n"))
        Walk(self.antt_names(source, block), found).term(TOKEN.findall(lines), bound)
        return found

    def rust_node(self, source, block):
        """The node of a type, a constant or a trait."""
        key = (source.path, block.name)
        if key not in self.rust:
            model = next((it for it in source.blocks if it.kind == "impl" and it.trait == "Model" and it.name == block.name), None)
            lines = self.lines_of(source, block, model)
            self.rust[key] = Node(source.path, block.name, lines, lambda: self.named_by(source, block, model))
        return self.rust[key]

    def lines_of(self, source, block, model):
        """What a reader has to read of an item: all of it, or its head and its value where it is seen through one."""
        start = source.line_of(block.at)
        above = range(source.doc_start(start), start)
        if not model:
            return [i for i in (*above, *range(start, source.line_of(block.end) + 1)) if source.text.split("\n")[i].strip()]
        value = re.compile(r"ghost Value = \{").search(source.mask, model.body)
        place = source.line_of(value.start())
        return [*above, start, *range(place, source.line_of(balanced(source.mask, value.end() - 1)) + 1)]

    def named_by(self, source, block, model):
        """What an item names: by its value where it is seen through one, else by its fields, members and clauses."""
        if model:
            value = re.compile(r"ghost Value = \{").search(source.mask, model.body)
            return self.in_clause(source, model, source.text[value.end() : balanced(source.mask, value.end() - 1)], set())
        found = self.rust_names(source, re.sub(r"#!?\[[^\]]*\]", "", self.plain(source, block)))
        for text in self.ghosts(source, block):
            found += self.in_clause(source, block, text, {"Self"})
        for function in source.functions:
            if function.block is block:
                found += self.function_names(function)
        return [it for it in found if it is not self.rust.get((source.path, block.name))]

    def plain(self, source, block):
        """The text of an item without its ghost members and its clauses."""
        text = source.mask[block.at : block.end]
        for at in reversed(list(re.finditer(r"\b(?:ghost|requires|ensures)\*?(?:\s+\w+)?\s*[:=]?\s*\{", text))):
            text = text[: at.start()] + text[balanced(text, at.end() - 1) + 1 :]
        if block.kind == "enum":
            text = re.sub(r"^    [A-Z]\w*", "", text, flags=re.M)
        return re.sub(r"ghost use [^;]*;", "", text)

    def ghosts(self, source, block):
        """The terms of the ghost members and fields of an item."""
        found = []
        for at in GHOST_MEMBER.finditer(source.mask, block.body, block.end):
            found.append(source.text[at.end() : balanced(source.mask, at.end() - 1)])
        return found

    def member(self, node, name):
        """The node of a ghost member that an impl gives a type, as `says` of a fetcher."""
        source = self.sources.get(node.path)
        key = (node.path, f"{node.name}.{name}")
        if source is None or key in self.rust:
            return self.rust.get(key)
        for block in source.blocks:
            if block.kind == "impl" and block.trait not in (None, "Model") and block.name == node.name:
                for at in GHOST_MEMBER.finditer(source.mask, block.body, block.end):
                    if at[1] == name:
                        close = balanced(source.mask, at.end() - 1)
                        text = source.text[at.end() : close]
                        lines = range(source.line_of(at.start()), source.line_of(close) + 1)
                        self.rust[key] = Node(node.path, key[1], lines, lambda: self.in_clause(source, block, text, set()))
                        return self.rust[key]
        return None

    # -- functions

    def function_names(self, function, clauses=None):
        """What a function's signature and its clauses name; of its `ensures` these alone, where they are given."""
        source, block = function.source, function.block
        header = block.header if block is not None and block.kind == "impl" else ""
        found = self.rust_names(source, function.signature + " " + header)
        for kind, name, text in function.clauses:
            if kind != "ensures" or clauses is None or name in clauses:
                found += self.in_clause(source, block, text, function.bound())
                found += self.bound_words(source, f"{function.signature} {header}", text)
        return found

    def bound_words(self, source, header, text):
        """The ghost members that a clause takes from bounds of the kit, as `contents` of a writer."""
        found, uses = [], source.uses()
        for name, bounds in re.findall(r"[<,]\s*([A-Z]\w*):\s*([^,<>]+)", header):
            kits = [it for it in re.findall(r"\w+", bounds) if uses.get(it, [""])[0] == "std"]
            for member in dict.fromkeys(re.findall(rf"\b{name}\.(\w+)", text)):
                found += [("::".join(uses[it]), member) for it in kits if it not in MARKERS]
        return found

    def function(self, crate, name):
        """The public function of this name that a crate passes on, or the method `Type::name` of a type of it, or None."""
        owner, _, name = name.rpartition("::")
        for source in self.sources.values():
            if source.crate == crate:
                for it in source.functions:
                    if it.name == name and (it.block.name == owner if it.block else it.is_public and not owner):
                        return it
        return None

    # -- what is public

    def public(self, crate):
        """What a crate passes on: as pairs the files and names of its lib.rt's `pub use` lines."""
        lib = self.sources.get(f"crates/{crate}/src/lib.rt")
        found = []
        for at in re.finditer(r"^pub use ([^;]+);", lib.mask if lib else "", re.M):
            for parts, _ in expand(re.sub(r"\s+", " ", at[1])):
                parts = parts[1:] if parts[0] == "crate" else parts
                path = f"crates/{crate}/src/{'/'.join(parts[:-1]) or 'lib'}.rt"
                if path in self.sources:
                    found.append((path, parts[-1]))
        return found

    def public_clauses(self, crate, with_views=True):
        """The nodes that stand for the public clauses of a crate; with how its types are seen, or without."""
        roots, names = [], set()
        for path, name in self.public(crate):
            source = self.sources[path]
            if name in source.items:
                names.add(name)
                roots.append(self.rust_node(source, source.items[name]))
            roots += [self.head(it) for it in source.functions if it.name == name and it.block is None]
        for path, source in self.sources.items():
            for block in source.blocks if source.crate == crate else ():
                if block.kind == "impl" and block.name in names:
                    roots += self.impl_clauses(source, block, with_views)
        return roots

    def impl_clauses(self, source, block, with_views):
        """The nodes of the public functions of an impl of a public type, and of the ghost members of its traits."""
        roots = [self.head(it) for it in source.functions if it.block is block and (it.is_public or block.trait)]
        if block.trait is not None and (with_views or block.trait != "Model"):
            for text in self.ghosts(source, block):
                roots.append(Node(source.path, block.name, (), lambda text=text: self.in_clause(source, block, text, set()), text))
        return roots

    def head(self, function, clauses=None):
        """The node of a function's head."""
        text = "\n".join(text for kind, name, text in function.clauses if kind != "ensures" or clauses is None or name in clauses)
        return Node(function.source.path, function.name, (), lambda: self.function_names(function, clauses), text)

    def reach(self, roots, without=()):
        """All nodes that the roots lead to, in the order in which a reader meets them last, and the words of the kit. Of a record
        as which a type is seen, the fields that none of them names are left out."""
        fields, more = frozenset(), frozenset()
        while True:
            order, words = self.reach_by(roots, without, fields)
            more = fields.union(*(self.projections(it) for it in order))
            if more == fields:
                return order, words
            fields = more

    @functools.cache
    def projections(self, node):
        """The names that stand behind a dot in a node's lines, or in the clauses of a function."""
        text = node.text if node.text is not None else "\n".join(read_lines(node.path)[i] for i in node.lines)
        return frozenset(re.findall(r"\.([a-z]\w*)", text))

    def records_seen(self):
        """The records as which types are seen."""
        found = {}
        for source in self.sources.values():
            for block in source.blocks:
                if block.kind == "impl" and block.trait == "Model":
                    value = re.compile(r"ghost Value = \{\s*(\w+)\s*\}").search(source.text, block.body, block.end)
                    for node in (self.resolve(it) for it in self.in_clause(source, block, value[1], set())) if value else ():
                        spec = next((it for it in self.specs.values() if isinstance(node, Node) and it.path == node.path), None)
                        if spec and node.name in spec.records:
                            found[node] = spec
        return found

    def reach_by(self, roots, without, fields):
        """The same, where these fields are named."""
        order, words, seen = [], {}, set()

        def visit(node):
            if node in self.values:
                node = self.values[node].with_fields(node.name, fields)
            if node in seen or node.name in without or node.path in without:
                return
            seen.add(node)
            nodes, found = self.targets(node)
            words.update(dict.fromkeys(found))
            for it in nodes:
                visit(it)
            order.append(node)

        for root in roots:
            visit(root)
        return order, words
