"""Which functions call which, by the text of the sources.

A method's type is told by a parameter, a `let`, a field, a pattern, or what another call returns. Where it can't be told, nothing is said of the call, rather
than what is wrong. Four rules stand for what is handed on:

- a path that stands as a value, as `map(View::as_u32)`, is a call;
- who names a type of its own crate may call what the type's `impl` of a trait does;
- an arm of a `match` over an enum of a crate of tests is for those who name its variant; `_` is for the variants without an arm;
- a closure's first parameter is what the option, result or sequence before it holds.
"""
import re
from collections import namedtuple

# `home` is the crate that defines the type, and None for std's. Of a tuple the name is `(`, of a slice or another sequence `[`.
Type = namedtuple("Type", "home name args")
# What a function does: the calls that its text makes, and those of some arms, each list with the variants that the arm is for.
Does = namedtuple("Does", "calls variants types arms")
Arm = namedtuple("Arm", "enum wanted others does")

WORD = re.compile(r"[^\W\d]\w*")
SEQUENCES = {"Vec", "SmallVec", "Iterator", "IntoIter", "Iter", "VecDeque"}
WRAPS = {"Option", "Result"}
SAME = {"as_ref", "as_mut", "as_slice", "as_mut_slice", "clone", "cloned", "copied", "filter", "iter", "iter_mut", "into_iter", "or", "rev", "skip", "take", "to_vec",
        "by_ref", "skip_while", "take_while", "peekable", "as_deref", "as_deref_mut", "inspect", "to_owned", "ok_or", "ok_or_else", "or_else", "map_err"}
ONE = {"first", "last", "pop", "next", "get", "get_mut", "find", "nth", "first_mut", "last_mut", "peek", "min", "max", "next_back"}
HELD = {"unwrap_or", "unwrap_or_default", "unwrap_or_else", "expect", "unwrap"}
OF_FAULT = {"is_err_and", "map_err", "unwrap_or_else", "or_else"}


# ---- text

HIDDEN = re.compile(r'//[^\n]*|r#"(?:.|\n)*?"#|b?r?"(?:\\(?:.|\n)|[^"\\])*"|b?\'(?:\\[^\']+|[^\\\'\n])\'')


def hide(text):
    """The text with its comments, strings and characters blanked, so that brackets and words can be looked for."""
    return HIDDEN.sub(lambda m: re.sub(r"[^\n]", " ", m.group()), text)


def closing(text, at):
    """Where the bracket that opens at `at` is closed."""
    pairs = {"(": ")", "[": "]", "{": "}"}
    opened, closed, depth = text[at], pairs[text[at]], 0
    for i in range(at, len(text)):
        if text[i] == opened:
            depth += 1
        elif text[i] == closed:
            depth -= 1
            if depth == 0:
                return i
    raise ValueError(f"unclosed {opened} at {at}")


def past_generics(text, at):
    """The place past `<..>`, where there is one."""
    if text[at] != "<":
        return at
    depth = 0
    for i in range(at, len(text)):
        if text[i] == "<":
            depth += 1
        elif text[i] == ">" and text[i - 1] not in "-=":
            depth -= 1
            if depth == 0:
                return i + 1
    raise ValueError(f"unclosed < at {at}")


def last_segment(path):
    return re.sub(r"<.*", "", path.strip(), flags=re.S).split("::")[-1].strip("&' ")


def split(text, mark=","):
    """The parts of a text between marks that stand in no brackets."""
    parts, depth, start = [], 0, 0
    for i, char in enumerate(text):
        if char in "([{<":
            depth += 1
        elif char in ")]}" or (char == ">" and text[i - 1 : i] not in ("-", "=")):
            depth -= 1
        elif char == mark and depth == 0:
            parts.append(text[start:i])
            start = i + 1
    return [part.strip() for part in [*parts, text[start:]] if part.strip()]


# ---- names and types

class Scope:
    """What the names of a file mean: those that it takes from elsewhere, and those of its own crate."""

    def __init__(self, graph, crate, source):
        self.graph, self.crate, self.source = graph, crate, source
        self.taken = {}
        self.modules = {"crate", "super", "self", *(it.path.stem for it in crate.sources)}
        for found in re.finditer(r"(?<!ghost )\buse ([^;]+);", source.code):
            self.take("", found[1])

    def take(self, before, text):
        """Takes the names of `a::{b, c as d}`, each with the path to it."""
        for part in split(text):
            path, opened, inner = part.partition("{")
            if opened:
                self.take(before + path, inner.rsplit("}", 1)[0])
            else:
                path, _, here = part.partition(" as ")
                path = (before + path).strip().split("::")
                self.taken[(here or path[-1]).strip()] = path

    def home(self, word):
        """The crate that defines a name, and the name there; None for the crate of what std defines."""
        path = self.taken.get(word)
        if path and path[0] in self.graph.names:
            return self.graph.handed(path[0], path[-1])
        if path and path[0] in self.modules:
            return self.graph.handed(self.crate.name, path[-1])
        return self.graph.handed(self.crate.name, word) if not path else (None, word)

    def type(self, text, params=(), own=None):
        """The type of a text. `params` are the types that stand for parameters of type, and `own` is Self."""
        text = re.sub(r"^(?:&|mut\b|dyn\b|impl\b|'\w+|\s)+", "", text.strip())
        if text[:1] in ("(", "["):
            inner = text[1 : closing(text, 0)]
            parts = split(inner) if text[0] == "(" else split(inner, ";")[:1]
            return Type(None, text[0], [self.type(part, params, own) for part in parts])
        path = re.match(r"[\w:]+", text)
        if not path:
            return None
        name = path[0].split("::")[-1]
        if name == "Self":
            return own
        if name in dict(params):
            return dict(params)[name]
        inner = text[path.end() + 1 : past_generics(text, path.end()) - 1] if text[path.end() : path.end() + 1] == "<" else ""
        args = [self.type(part.split("=")[-1], params, own) for part in split(inner) if not part.startswith("'")]
        home, name = self.home(name)
        return Type(home, "[", args[:1]) if home is None and name in SEQUENCES else Type(home, name, args)


class Node:
    """A function, with its types."""

    def __init__(self, graph, crate, source, function):
        self.graph, self.crate, self.source, self.function = graph, crate, source, function
        self.scope = graph.scopes[source]
        block = source.block_at(function.start)
        self.owner, self.trait = (block[2], block[3]) if block else (None, None)
        self.is_test = re.search(r"#\[test\]\s*(?:#\[[^\]]*\]\s*)*$", source.code[: function.start].rstrip() + "\n") is not None
        home = self.scope.home(self.owner) if self.owner else None
        self.own = Type(*home, []) if home else None
        head = source.code[function.start : function.body]
        opened = head.index("(", past_generics(head, head.index(function.name) + len(function.name)))
        self.params = dict(re.findall(r"\b([A-Z]\w*): (?:Copy \+ )?([A-Z]\w*)", head[:opened] + head[closing(head, opened) :]))
        self.params = [(name, self.scope.type(bound)) for name, bound in self.params.items() if bound != "Sized"]
        self.takes = split(head[opened + 1 : closing(head, opened)])
        given = re.match(r"\s*->\s*((?:.|\n)*?)\s*(?:\b(?:requires|ensures|decreases|where)\b|#\[|$)", head[closing(head, opened) + 1 :])
        self.gives = self.scope.type(given[1], self.params, self.own) if given and given[1] else None

    def key(self):
        return (self.crate.name, self.owner, self.function.name)


class Graph:
    """All functions of the crates, and what each does."""

    def __init__(self, crates):
        self.crates = {crate.name: crate for crate in crates}
        self.names, self.given, self.defined = set(self.crates), {}, {}
        self.fields, self.variants, self.items, self.implements = {}, {}, {}, {}
        for crate in crates:
            self.given[crate.name] = {name: of for of, name in crate.handed_on() if of in self.names}
            text = "\n".join(source.code for source in crate.sources)
            self.defined[crate.name] = set(re.findall(r"\b(?:struct|enum|trait|fn|union|type) (\w+)", text))
        self.scopes = {source: Scope(self, crate, source) for crate in crates for source in crate.sources}
        for crate in crates:
            for source in crate.sources:
                self.read_types(crate, source)
        self.nodes, self.done = {}, {}
        for crate in crates:
            for source in crate.sources:
                for function in source.functions:
                    node = Node(self, crate, source, function)
                    self.nodes.setdefault(node.key(), []).append(node)
        self.of_traits = [node for nodes in self.nodes.values() for node in nodes if node.trait]
        self.of_tests = {node.crate.name for node in self.tests()}

    def tests(self):
        """The tests, in the order of their files."""
        found = [node for nodes in self.nodes.values() for node in nodes if node.is_test]
        return sorted(found, key=lambda node: (node.crate.name, str(node.source.path), node.function.start))

    def callers(self, source, start):
        """The crates that have a caller of the function that begins there."""
        for nodes in self.nodes.values():
            for node in nodes:
                if any((it.source, it.function.start) == (source, start) for it in self.all_calls(self.does(node))):
                    yield node.crate.name

    def all_calls(self, does):
        yield from does.calls
        for arm in does.arms:
            yield from self.all_calls(arm.does)

    def handed(self, crate, name):
        """The crate that defines what another one hands on."""
        while name not in self.defined[crate] and name in self.given[crate]:
            crate = self.given[crate][name]
        return (crate, name) if name in self.defined[crate] else (None, name)

    def read_types(self, crate, source):
        """The fields of structs, what variants hold, and which traits are carried out."""
        scope, code = self.scopes[source], source.code
        for found in re.finditer(r"\b(struct|enum) (\w+)", code):
            at = past_generics(code, found.end())
            at += len(code[at:]) - len(code[at:].lstrip())
            if code[at] not in "{(":
                continue
            body = re.sub(r"#\[[^\]]*\]", "", code[at + 1 : closing(code, at)])
            if found[1] == "struct" and code[at] == "{":
                self.fields[crate.name, found[2]] = self.named_fields(scope, body)
            elif found[1] == "enum":
                self.variants[crate.name, found[2]] = {WORD.search(part)[0]: self.held(scope, part) for part in split(body) if WORD.search(part)}
        for start, end, owner, trait, _ in source.blocks:
            if trait:
                self.implements.setdefault(scope.home(owner), set()).add(scope.home(trait))
            item = re.compile(r"\btype Item = ([^;]+);").search(code, start, end)
            if item:
                self.items[scope.home(owner)] = scope.type(item[1])

    @staticmethod
    def named_fields(scope, body):
        pairs = (re.sub(r"\bpub(?:\([^)]*\))? ", "", part).split(":", 1) for part in split(body) if ":" in part)
        return {name.strip(): scope.type(text) for name, text in pairs}

    def held(self, scope, part):
        """What a variant holds: a list of types, or a dictionary."""
        name = WORD.search(part)
        rest = part[name.end() :].strip()
        if rest.startswith("("):
            return [scope.type(text) for text in split(rest[1:-1])]
        return self.named_fields(scope, rest[1:-1]) if rest.startswith("{") else []

    def method(self, of, name):
        """The functions that a method of a type is: its own, or those of the traits that it carries out."""
        own = self.nodes.get((of.home, of.name, name), [])
        plain = [node for node in own if not node.trait]
        stated = [node for trait in self.implements.get((of.home, of.name), ()) for node in self.nodes.get((*trait, name), [])]
        return plain or own + stated

    def does(self, node):
        if id(node) not in self.done:
            self.done[id(node)] = Reader(self, node).read()
        return self.done[id(node)]

    def reached(self, starts, crates):
        """The functions that these lead to by others of these crates."""
        seen, tried, waiting = {}, set(), [None]
        while waiting:
            variant = waiting.pop()
            tried.add(variant)
            waiting += self.walked(starts, crates, variant, seen) - tried - set(waiting)
        return list(seen.values())

    def walked(self, starts, crates, variant, seen):
        """Adds the functions that are led to by this variant of an enum of tests, and gives the variants that are named on the way."""
        found, variants, types, waiting = {}, set(), set(), list(starts)
        while waiting:
            found.update({id(node): node for node in waiting})
            inside = [node for node in found.values() if node.crate.name in crates]
            calls = [call for node in inside for call in self.taken(self.does(node), variant, variants, types)]
            calls += [node for node in self.of_traits if (node.crate.name, node.owner) in types]
            waiting = [node for node in calls if id(node) not in found]
        seen.update(found)
        return {(of, name) for of, name in variants if of[0] in self.of_tests}

    def taken(self, does, variant, variants, types):
        """What a function calls by this variant. What it names is added."""
        variants |= does.variants
        types |= does.types
        calls = list(does.calls)
        for arm in does.arms:
            if variant and arm.enum == variant[0] and (variant[1] in arm.wanted if arm.wanted else variant[1] not in arm.others):
                calls += self.taken(arm.does, variant, variants, types)
        return calls


# ---- reading a function

class Reader:
    """Reads the text of a function once, from its beginning to its end, and keeps the types of its names."""

    def __init__(self, graph, node):
        self.graph, self.node, self.scope = graph, node, node.scope
        self.text = node.source.code
        self.types = {"self": node.own}
        self.does = Does([], set(), set(), [])
        for part in node.takes:
            name, colon, of = part.partition(":")
            if colon:
                self.bind(name, self.scope.type(of, node.params, node.own))

    def read(self):
        if self.text[self.node.function.body] == "{":
            self.walk(self.node.function.body + 1, self.node.function.end)
        return self.does

    # -- patterns

    def bind(self, pattern, of):
        """Gives the names of a pattern their types."""
        pattern = re.sub(r"^(?:&|\bref\b|\bmut\b|\s)+", "", pattern.strip())
        found = re.match(r"([\w:]*)\s*([({\[]?)", pattern)
        name, opened = found[1], found[2]
        if not opened:
            if re.fullmatch(r"[a-z_]\w*", name):
                self.types[name] = of
            return
        parts = split(pattern[found.end() : closing(pattern, found.end() - 1)])
        if opened == "[":
            for part in parts:
                self.bind(part, of.args[0] if of and of.name == "[" and of.args else None)
        elif opened == "(" and not name:
            held = of.args if of and of.name == "(" and len(of.args) == len(parts) else [None] * len(parts)
            for part, each in zip(parts, held):
                self.bind(part, each)
        else:
            self.bind_variant(name, parts, opened, of)

    def bind_variant(self, name, parts, opened, of):
        word = name.split("::")[-1]
        if word in ("Some", "Ok", "Err"):
            at = 1 if word == "Err" else 0
            held = [of.args[at]] if of and of.name in WRAPS and len(of.args) > at else [None]
        elif "::" in name:
            home = self.scope.home(name.split("::")[-2])
            held = self.graph.variants.get(home, {}).get(word, [])
        else:
            held = self.graph.fields.get(self.scope.home(word), {})
        for i, part in enumerate(parts):
            if opened == "{":
                field, colon, inner = re.sub(r"^(?:ref |mut )+", "", part).partition(":")
                self.bind(inner if colon else field, held.get(field.strip()) if isinstance(held, dict) else None)
            else:
                self.bind(part, held[i] if isinstance(held, list) and i < len(held) else None)

    # -- statements

    def walk(self, at, end):
        """Reads a part of the text."""
        while at < end:
            found = WORD.search(self.text, at, end)
            if not found:
                return
            before = self.text[found.start() - 1]
            if before == "'" or before == "#":
                at = found.end()
            elif before == "." and self.text[found.start() - 2] != ".":
                _, at = self.postfix(None, found.start() - 1, end)
            elif found[0] == "let":
                at = self.read_let(found.end(), end)
            elif found[0] == "for":
                at = self.read_for(found.end(), end)
            elif found[0] == "match":
                at = self.read_match(found.end(), end)
            elif found[0] in ("if", "else", "while", "loop", "return", "in", "mut", "ref", "as", "move", "break", "continue", "const", "static", "unsafe"):
                at = found.end()
            elif found[0] in ("ghost", "use"):
                at = self.text.find(";", found.end()) + 1 or end
            else:
                _, at = self.chain(found.start(), end)

    def until(self, at, end, marks):
        """Where one of these characters stands that is in no brackets, and no part of another sign."""
        while at < end:
            char = self.text[at]
            if char in marks and self.text[at : at + 2] not in ("==", "=>"):
                return at
            at = closing(self.text, at) + 1 if char in "([{" else at + 1
        return end

    def read_let(self, at, end):
        equals = self.until(at, end, "=;")
        declared = re.match(r"\s*((?:mut )?\w+|\([^)]*\))\s*:(?!:)(.*)", self.text[at:equals], re.S)
        pattern, of = (declared[1], self.scope.type(declared[2], self.node.params, self.node.own)) if declared else (self.text[at:equals], None)
        if self.text[equals : equals + 1] != "=":
            self.bind(pattern, of)
            return equals
        found, after = self.expression(equals + 1, end)
        self.bind(pattern, of or found)
        return after

    def read_for(self, at, end):
        place = re.compile(r"\bin\b").search(self.text, at, end)
        found, after = self.expression(place.end(), end)
        self.bind(self.text[at : place.start()], self.item(found))
        return after

    def read_match(self, at, end):
        of, _ = self.expression(at, end)
        opened = self.until(at, end, "{")
        self.walk(at, opened)
        closed, at = closing(self.text, opened), opened + 1
        arms = []
        while at < closed:
            arrow = self.text.find("=>", at, closed)
            if arrow < 0:
                break
            start = arrow + 2 + len(self.text[arrow + 2 :]) - len(self.text[arrow + 2 :].lstrip())
            if self.text[start] == "{":
                stop = closing(self.text, start) + 1
            else:
                stop = self.until(start, closed, ",")
            arms.append((self.text[at:arrow].strip(" ,\n"), start, stop))
            at = stop + (self.text[stop : stop + 1] == ",")
        self.read_arms(of, arms)
        return closed + 1

    def read_arms(self, of, arms):
        variants = [set(re.findall(r"\b(\w+)::(\w+)", pattern.split(" if ")[0])) for pattern, _, _ in arms]
        named = {self.own_enum(enum) for each in variants for enum, _ in each} - {None}
        others = {name for each in variants for _, name in each}
        for (pattern, start, stop), each in zip(arms, variants):
            before, outer = dict(self.types), self.does
            head, guard, rest = pattern.partition(" if ")
            for one in split(head, "|")[:1]:
                self.bind(one, of)
            enums = {self.own_enum(enum) for enum, _ in each} - {None}
            if len(named) == 1 and (enums or head.strip() == "_"):
                self.does = Does([], set(), set(), [])
                outer.arms.append(Arm(*named, {name for enum, name in each if self.own_enum(enum)}, others, self.does))
            if guard:
                self.walk(self.text.index(rest, start - len(pattern) - 8), start)
            self.walk(start, stop)
            self.types, self.does = before, outer

    def own_enum(self, word):
        """An enum of this crate of tests."""
        home = self.node.own[:2] if word == "Self" and self.node.own else self.scope.home(word)
        return home if home in self.graph.variants and home[0] in self.graph.of_tests else None

    # -- expressions

    def expression(self, at, end):
        """The type of an expression that is one chain, else None; and where the first chain of it ends."""
        at = re.compile(r"(?:\s|&|\*|!|-|\bmut\b)*").match(self.text, at, end).end()
        if self.text[at : at + 1] in ("(", "["):
            closed = closing(self.text, at)
            parts, place = [], at + 1
            while place < closed:
                stop = self.until(place, closed, ",;")
                parts.append(self.whole(place, stop))
                place = stop + 1
            if self.text[at] == "(" and len(parts) == 1:
                of = parts[0]
            else:
                of = Type(None, self.text[at], parts if self.text[at] == "(" else parts[:1])
            return self.postfix(of, closed + 1, end)
        found = WORD.match(self.text, at, end)
        if not found or found[0] in ("if", "match", "loop", "unsafe", "move"):
            return None, at
        of, after = self.chain(at, end)
        rest = re.compile(r"\s*(\S\S?|$)").match(self.text, after, end)[1]
        return (of if not rest or rest[0] in ";{,)]}" or rest == "el" else None), after

    def whole(self, at, end):
        """The type of an expression that ends here, all of which is read."""
        of, after = self.expression(at, end)
        self.walk(after, end)
        return of if not self.text[after:end].strip() else None

    def chain(self, at, end):
        """The type of a name or path, and of what follows on it; and where it ends."""
        path = re.compile(r"\w+(?:::(?:<[^()]*?>|\w+))*").match(self.text, at, end)
        words = [word for word in path[0].split("::") if not word.startswith("<")]
        place = path.end()
        if self.text[place : place + 1] == "!" and self.text[place + 1 : place + 2] in ("(", "["):
            closed = closing(self.text, place + 1)
            self.walk(place + 2, closed)
            return None, closed + 1
        called = self.text[place : place + 1] == "("
        args = self.arguments(place) if called else []
        after = closing(self.text, place) + 1 if called else place
        of = self.value(words, args, called)
        if not called and of and words[-1][0].isupper() and re.match(r"\s*\{", self.text[place:end]):
            after = closing(self.text, self.text.index("{", place))
            self.walk(place, after)
            after += 1
        return self.postfix(of, after, end)

    def arguments(self, opened):
        """The types of arguments, all of which are read."""
        closed, at, types = closing(self.text, opened), opened + 1, []
        while at < closed:
            stop = self.until(at, closed, ",")
            types.append(self.whole(at, stop))
            at = stop + 1
        return types

    def value(self, words, args, called):
        """The type of a path, which is called if it is a function."""
        if len(words) == 1:
            word = words[0]
            if word in ("Some", "Ok"):
                return Type(None, "Option" if word == "Some" else "Result", args[:1]) if args else None
            if word in self.types:
                return None if called else self.types[word]
            return self.named(word, called)
        owner = "Self" if words[-2] == "Self" else words[-2]
        own = self.node.own if owner == "Self" else self.type_named(owner, words)
        if own and (own.home, own.name) in self.graph.variants and words[-1] in self.graph.variants[own.home, own.name]:
            self.name_type(own)
            self.does.variants.add(((own.home, own.name), words[-1]))
            return own
        if own and own.home:
            self.name_type(own)
            return self.call(self.graph.method(own, words[-1]), own, called)
        return self.of_module(words, called)

    def type_named(self, word, words):
        if dict(self.node.params).get(word):
            return dict(self.node.params)[word]
        if len(words) > 2 and words[-3] in self.graph.names:
            return Type(*self.graph.handed(words[-3], word), [])
        home, name = self.scope.home(word)
        return Type(home, name, []) if word[0].isupper() else None

    def of_module(self, words, called):
        """A function by its module or crate."""
        if words[-2] in self.graph.names:
            crate = self.graph.handed(words[-2], words[-1])[0]
        else:
            crate = self.node.crate.name if self.scope.taken.get(words[-2], words)[0] in self.scope.modules else None
        nodes = [node for node in self.graph.nodes.get((crate, None, words[-1]), [])]
        nodes = [node for node in nodes if node.source.path.stem == words[-2]] or nodes
        return self.call(nodes, None, called)

    def named(self, word, called):
        """A function or a type by its name alone."""
        home = self.scope.home(word)
        if word[0].isupper() and home[0]:
            of = Type(*home, [])
            self.name_type(of)
            return of
        nodes = self.graph.nodes.get((home[0], None, home[1]), []) if home[0] else []
        path = self.scope.taken.get(word)
        if path and len(path) > 1 and path[0] in self.scope.modules:
            nodes = [node for node in nodes if node.source.path.stem == path[-2]] or nodes
        elif not path:
            nodes = [node for node in nodes if node.source is self.node.source]
        return self.call(nodes, None, called)

    def name_type(self, of):
        if of.home == self.node.crate.name:
            self.does.types.add((of.home, of.name))

    def call(self, nodes, own, called):
        self.does.calls.extend(nodes)
        given = next((node.gives for node in nodes), None)
        if given and own and nodes[0].owner and given == nodes[0].own:
            given = own
        return given if called else Type(None, "fn", [given]) if nodes else None

    def postfix(self, of, at, end):
        """The type of what follows on a value: fields, methods, `?` and indices."""
        while at < end:
            found = re.compile(r"\s*\.(\w+)(?:::<[^()]*?>)?(\()?|(\?)|(\[)").match(self.text, at, end)
            if not found:
                break
            at = found.end()
            if found[3]:
                of = of.args[0] if of and of.name in WRAPS and of.args else None
            elif found[4]:
                closed = closing(self.text, at - 1)
                self.walk(at, closed)
                of = of if ".." in self.text[at:closed] else self.item(of)
                at = closed + 1
            elif found[2]:
                closed = closing(self.text, at - 1)
                of = self.method(of, found[1], at, closed)
                at = closed + 1
            else:
                of = self.field(of, found[1])
        return of, at

    def field(self, of, name):
        if of and name.isdigit():
            return of.args[int(name)] if of.name == "(" and int(name) < len(of.args) else None
        return self.graph.fields.get((of.home, of.name), {}).get(name) if of else None

    def method(self, of, name, at, closed):
        """The type that a method gives, whose arguments stand here."""
        closure = re.compile(r"\s*(?:move )?\|([^|]*)\|").match(self.text, at, closed)
        if closure:
            held = of.args[1] if of and of.name == "Result" and name in OF_FAULT and len(of.args) > 1 else self.held(of)
            for pattern in split(closure[1])[:1]:
                self.bind(pattern.split(": ")[0], held)
            given = Type(None, "fn", [self.whole(closure.end(), closed)])
        else:
            args = self.arguments(at - 1)
            given = args[0] if args else None
        if of is None:
            return None
        if of.home or (of.home, of.name) in self.graph.implements:
            nodes = self.graph.method(of, name)
            if nodes:
                return self.call(nodes, of, True)
        return self.of_std(of, name, given, self.text[at:closed])

    def of_std(self, of, name, given, text):
        """What std's methods give of options, results and sequences."""
        back = given.args[0] if given and given.name == "fn" else None
        if name == "ok" and of.name == "Result":
            return Type(None, "Option", of.args[:1])
        if name == "err" and of.name == "Result":
            return Type(None, "Option", of.args[1:2])
        if name in HELD and of.name in WRAPS:
            return of.args[0] if of.args else None
        if name == "map":
            return Type(None, of.name if of.name in WRAPS else "[", [back, *of.args[1:]])
        if name == "and_then":
            return back
        if name == "enumerate":
            return Type(None, "[", [Type(None, "(", [None, self.item(of)])])
        if name == "zip":
            return Type(None, "[", [Type(None, "(", [self.item(of), self.item(given)])])
        if name in SAME or (name == "get" and ".." in text):
            return of
        if name in ONE and (of.name == "[" or (of.home, of.name) in self.graph.items):
            return Type(None, "Option", [self.item(of)])
        return None

    def item(self, of):
        """What a sequence holds."""
        if of and (of.home, of.name) in self.graph.items:
            return self.graph.items[of.home, of.name]
        return of.args[0] if of and of.name == "[" and of.args else None

    def held(self, of):
        return of.args[0] if of and of.name in WRAPS and of.args else self.item(of)
