"""The small faults that tools/mutate tries in a file: in Python by its syntax tree, in JavaScript and C by its tokens."""
import ast
import collections
import itertools
import re

SWAP = {"<": "<=", "<=": "<", ">": ">=", ">=": ">", "==": "!=", "!=": "==", "+": "-", "-": "+", "*": "+", "//": "*", "/": "*",
        "%": "//", "<<": ">>", ">>": "<<", "&": "|", "|": "&", "^": "|", "is": "is not", "is not": "is", "in": "not in",
        "not in": "in", "and": "or", "or": "and"}
SIGNS = {it: new for it, new in SWAP.items() if not it[0].isalpha() and it != "//"}  # those of JavaScript and C
SIGNS.update({"===": "!==", "!==": "===", "&&": "||", "||": "&&", "+=": "-=", "-=": "+=", "++": "--", "--": "++", "!": "", "%": "/",
              "true": "false", "false": "true", "|=": "&=", "&=": "|=", "??": "&&", ">>>": "<<"})
OPERATOR = re.compile(rb"is\s+not|not\s+in|\band\b|\bor\b|\bin\b|\bis\b|<<|>>|//|[<>=!]=|[-+*/%&|^<>]")
LEFT_OUT = ("Raise", "Assign", "AugAssign", "Continue", "Break", "Delete", "Expr")
Mutant = collections.namedtuple("Mutant", "path start end new line name")


def one_line(text):
    """Bytes as a text of one line."""
    return re.sub(r"\s+", " ", text.decode())


def mutants_of(path, data):
    """The mutants of a file. A name shows the line with the edit in brackets, so it stays the same while other lines change."""
    seen = collections.Counter()
    for start, end, new in (Tokens if path.endswith((".c", ".js")) else Python)(path, data).edits:
        first, last = data.rfind(b"\n", 0, start) + 1, (data + b"\n").find(b"\n", end)
        parts = map(one_line, (data[first:start].lstrip(), data[start:end], new, data[end:last]))
        name = "%s: %s[%s -> %s]%s" % (path, *parts)
        seen[name] += 1
        yield Mutant(path, start, end, new, data.count(b"\n", 0, start) + 1, name + (" (%d)" % seen[name]) * (seen[name] > 1))


def near(number, text):
    """A number one larger and one smaller, in the form of its text."""
    form = "0x%X" if text[:2].lower() == b"0x" else "%d"
    return [(form % it).encode() for it in (number + 1, number - 1) if it >= 0]


class Python:
    """The edits of a module: first byte, end, and what takes its place."""

    def __init__(self, _, data):
        self.data, self.starts = data, list(itertools.accumulate(map(len, data.splitlines(True)), initial=0))
        self.edits = [it for it in self.visit(ast.parse(data)) if data[it[0]:it[1]] != it[2]]

    def span(self, node):
        return self.starts[node.lineno - 1] + node.col_offset, self.starts[node.end_lineno - 1] + node.end_col_offset

    def text(self, node):
        return self.data[slice(*self.span(node))]

    def visit(self, node):
        """The edits of a node and of all below it."""
        kind = type(node).__name__
        is_left = kind == "If" and re.search(rb"TYPE_CHECKING|__name__", self.text(node.test))
        if is_left or kind in ("JoinedStr", "Import", "ImportFrom") or kind == "AnnAssign" and not node.value:
            return
        yield from self.own(node, kind)
        for name, value in ast.iter_fields(node):
            if name not in ("annotation", "returns", "decorator_list"):
                below = value if isinstance(value, list) else [value]
                yield from itertools.chain(*(self.visit(it) for it in below if isinstance(it, ast.AST)))

    def own(self, node, kind):
        """The edits of a node itself."""
        value = getattr(node, "value", None)
        if kind in ("Compare", "BoolOp", "BinOp"):
            yield from self.operators(node, kind)
        elif kind == "Constant" and isinstance(value, int):
            news = [str(not value).encode()] if isinstance(value, bool) else near(value, self.text(node))
            yield from ((*self.span(node), new) for new in news)
        elif kind == "UnaryOp" and isinstance(node.op, ast.Not):
            yield self.span(node)[0], self.span(node.operand)[0], b""
        elif kind in ("If", "IfExp", "While"):
            yield from ((*self.span(node.test), word) for word in (b"True", b"False"))
        elif kind == "comprehension":
            yield from ((*self.span(it), b"True") for it in node.ifs)
        elif kind == "Return" and value and self.text(value) != b"None":
            yield *self.span(value), b"not (%s)" % self.text(value) if isinstance(value, (ast.Compare, ast.BoolOp)) else b"None"
        elif kind in LEFT_OUT and not (kind == "Expr" and isinstance(value, (ast.Constant, ast.Yield, ast.YieldFrom))):
            yield *self.span(node), b"pass"
        elif kind == "Call":
            plain = [it for it in node.args if not isinstance(it, (ast.Starred, ast.GeneratorExp))]
            for left, right in zip(plain, plain[1:]):
                (low, to), (back, high) = self.span(left), self.span(right)
                yield low, high, self.text(right) + self.data[to:back] + self.text(left)
        elif kind == "Slice":
            ends = ((node.lower, b"%s + 1"), (node.upper, b"%s - 1"))
            yield from ((*self.span(it), new % self.text(it)) for it, new in ends if it and not isinstance(it, ast.Constant))

    def operators(self, node, kind):
        """Exchanges the operators between the nodes of one; `%` after a text is none."""
        nodes = node.values if kind == "BoolOp" else [node.left, *getattr(node, "comparators", [getattr(node, "right", None)])]
        is_text = isinstance(getattr(node, "op", None), ast.Mod) and isinstance(getattr(node.left, "value", None), (str, bytes))
        for left, right in [] if is_text else zip(nodes, nodes[1:]):
            low, high = self.span(left)[1], self.span(right)[0]
            found = OPERATOR.search(self.data, low, high)
            if found and b"#" not in self.data[low:found.start()]:
                yield *found.span(), SWAP[one_line(found.group())].encode()


TOKEN = re.compile(
    rb"(?P<space>\s+|//[^\n]*|/\*.*?\*/|^[ \t]*#(?:\\\n|[^\n])*)"
    rb"|(?P<text>\"(?:\\.|[^\"\\\n])*\"|'(?:\\.|[^'\\\n])*'|`(?:\\.|[^`\\])*`)"
    rb"|(?P<number>0[xX][0-9A-Fa-f]+|\d+)(?P<tail>\w*)|(?P<name>[A-Za-z_$][\w$]*)"
    rb"|(?P<sign>>>>|===|!==|\.\.\.|=>|->|\+\+|--|<<=?|>>=?|[-+*/%&|^<>=!]=|&&|\|\||\?\?|.)", re.S | re.M)
DECLARES = set(b"const let var import export function class return if for while else case default typedef struct static enum "
               b"extern union do switch async goto unsigned int char size_t void break continue".split())
DEPTH = {b"(": 1, b"[": 1, b"{": 1, b")": -1, b"]": -1, b"}": -1}


class Tokens:
    """The edits of a file in JavaScript or C, in the same form."""

    def __init__(self, path, data):
        self.data, self.is_script = data, path.endswith("js")
        self.tokens = [it for it in TOKEN.finditer(data) if not it.group("space")]
        self.words = [it.group() for it in self.tokens]
        self.edits = [it for k in range(len(self.words)) for it in (*self.own(k), *self.statement(k)) if data[it[0]:it[1]] != it[2]]

    def own(self, k):
        """The edits that begin with a token: a number, a condition, a result, an operator."""
        token, word, after = self.tokens[k], self.words[k], self.words[k + 1:k + 2]
        if token.group("number"):
            text = token.group("number")
            yield from ((*token.span("number"), new) for new in near(int(text, 16 if text[1:2] in (b"x", b"X") else 10), text))
        elif word in (b"if", b"while") and after == [b"("]:
            depths = itertools.accumulate(DEPTH.get(it, 0) for it in self.words[k + 1:])
            end = next(at for at, depth in enumerate(depths, k + 1) if not depth)
            for new in (b"true", b"false") if self.is_script else (b"1", b"0"):
                yield self.tokens[k + 1].end(), self.tokens[end].start(), new
        elif word == b"return" and after != [b";"]:
            start, end = self.tokens[k + 1].start(), self.tokens[self.words.index(b";", k)].start()
            if b"{" not in self.data[start:end]:
                yield start, end, b"undefined" if self.is_script else b"0"
        elif self.is_operator(k):
            yield *token.span(), SIGNS[word.decode()].encode()

    def is_operator(self, k):
        """Whether it is an operator between values, or needs none before it. In C `*` and `&` before a name may be pointers."""
        word, before = self.words[k].decode(errors="replace"), self.tokens[k - 1]
        is_name = before.lastgroup in ("name", "tail", "text") and before.group() not in DECLARES
        is_pointer = not self.is_script and word in "*&" and re.match(rb"[A-Za-z_]", self.data[self.tokens[k].end():])
        is_after = is_name or before.group() in (b")", b"]") or word in ("!", "true", "false", "++", "--")
        return word in SIGNS and is_after and not is_pointer

    def statement(self, k):
        """A statement that begins with a token is left out."""
        if not k or self.words[k - 1] not in (b";", b"{", b"}", b")"):
            return
        end = next((at for at in range(k, len(self.words)) if self.words[at] in (b";", b"{", b"}")), k)
        start = self.tokens[k].start()
        text, line = self.data[start:self.tokens[end].end()], self.data[:start].rpartition(b"\n")[2]
        is_start = self.tokens[k].lastgroup == "name" and self.words[k] not in DECLARES or self.words[k] in (b"*", b"++", b"--")
        is_whole = text.endswith(b";") and text.count(b"(") == text.count(b")") and not re.match(rb"\w+\s+\*?\w+", text)
        does = re.search(rb"[=(]|\+\+|--", text) and (self.words[k - 1] != b")" or b"if" in line)
        if is_start and is_whole and does:
            yield start, self.tokens[end].end(), b";"
