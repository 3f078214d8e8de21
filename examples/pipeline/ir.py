"""Reads the text of LLVM IR: tokens, types, operands, instructions, functions. `abstract.py` and `data.py` read by it.

An instruction that is not known has the kind "other" and keeps its text. A text that has not the form of LLVM's is a Fault.
"""
import collections
import re

TOKEN = re.compile(
    r"""(?P<space>[ \t\r\n]+|;[^\n]*)
      | (?P<label>(?:[-a-zA-Z$._][-a-zA-Z$._0-9]*|"[^"]*"|\d+):)
      | (?P<name>[%@](?:[-a-zA-Z$._][-a-zA-Z$._0-9]*|"[^"]*"|\d+))
      | (?P<string>c?"[^"]*")
      | (?P<meta>![-a-zA-Z$._0-9\\]*)
      | (?P<group>\#\w+)
      | (?P<number>0x[KLMHR]?[0-9A-Fa-f]+|-?\d+(?:\.\d*(?:[eE][-+]?\d+)?)?)
      | (?P<word>[-a-zA-Z$._][-a-zA-Z$._0-9]*)
      | (?P<sign>\.\.\.|[()\[\]{}<>,=*|:+])""",
    re.X,
)
SCALARS = re.compile(r"(i\d+|ptr|void|half|bfloat|float|double|x86_fp80|fp128|ppc_fp128|x86_mmx|x86_amx|label|metadata|token|opaque)$")
CONSTANTS = ("true", "false", "null", "undef", "poison", "zeroinitializer", "none")
EXPRESSIONS = (
    "getelementptr bitcast inttoptr ptrtoint ptrtoaddr addrspacecast trunc zext sext fptrunc fpext fptoui fptosi uitofp sitofp select icmp fcmp add sub mul "
    "shl lshr ashr and or xor udiv sdiv urem srem fadd fsub fmul fdiv frem fneg extractelement insertelement shufflevector extractvalue insertvalue "
    "blockaddress dso_local_equivalent no_cfi ptrauth splat"
).split()
BINARY = "add sub mul and or xor shl lshr ashr udiv sdiv urem srem fadd fsub fmul fdiv frem".split()
CASTS = "trunc zext sext bitcast fptrunc fpext fptoui fptosi uitofp sitofp ptrtoint inttoptr addrspacecast".split()
ONE_OPERAND = ["fneg", "freeze"]
TUPLES = "extractvalue insertvalue extractelement insertelement shufflevector".split()
OPEN, CLOSE = "([{<", ")]}>"

Token = collections.namedtuple("Token", "kind text line start end", defaults=(0, 0))
Operand = collections.namedtuple("Operand", "type value")
Global = collections.namedtuple("Global", "name words type value text line")
Declared = collections.namedtuple("Declared", "name result parameters text is_twice line")
Head = collections.namedtuple("Head", "words result name parameters decorations gc is_twice")


class Fault(Exception):
    """What is not read, with its line."""

    def __init__(self, line, what):
        super().__init__(f"line {line}: {what}")


class Instruction:
    """One instruction: its kind, the name of its value or None, its type, its operands, and what else its kind has."""

    def __init__(self, kind, line, name=None, type=None, operands=(), **more):
        self.kind, self.line, self.name, self.type, self.operands, self.more = kind, line, name, type, list(operands), more

    def __getattr__(self, member):
        if member == "more" or member not in self.more:
            raise AttributeError(member)
        return self.more[member]


class Function:
    """A defined function. A block is its label and its instructions."""

    def __init__(self, name, result, parameters, head):
        self.name, self.result, self.parameters, self.blocks = name, result, parameters, []
        self.gc, self.linkage, self.line, self.words = head["gc"], head["linkage"], head["line"], head["words"]


class Module:
    def __init__(self):
        self.types, self.globals, self.declared, self.functions, self.targets, self.twice = {}, {}, {}, {}, [], set()


def tokens_of(text):
    """The tokens of a text. A line of metadata has none."""
    found, at, line = [], 0, 1
    while at < len(text):
        token = TOKEN.match(text, at)
        if not token:
            raise Fault(line, f"no token begins with {text[at:at + 10]!r}")
        if token.lastgroup == "meta" and (at == 0 or text[at - 1] == "\n"):
            at = (text + "\n").index("\n", at)
            continue
        if token.lastgroup != "space":
            found.append(Token(token.lastgroup, token[0], line, at, token.end()))
        line += token[0].count("\n")
        at = token.end()
    return found


def statements(tokens):
    """The tokens of each line; a line goes on where a bracket is open, or where it ends with a comma or an equals sign."""
    found, depth, last = [], 0, None
    for token in tokens:
        goes_on = depth > 0 or (last is not None and last.text in (",", "="))
        if not found or (token.line != last.line and not goes_on):
            found.append([])
            depth = 0
        found[-1].append(token)
        if token.kind == "sign":
            depth += (token.text in OPEN) - (token.text in CLOSE)
        if token.text == "{" and found[-1][0].text == "define":
            depth -= ends_head(found[-1])
        last = token
    return found


def ends_head(tokens):
    """Whether the last of these tokens, a brace, opens the body of a function: a list of parameters was closed, and all is balanced."""
    depth = sum((token.text in OPEN) - (token.text in CLOSE) for token in tokens[:-1] if token.kind == "sign")
    return depth == 0 and any(token.text == ")" for token in tokens) and any(token.kind == "name" and token.text[0] == "@" for token in tokens)


class Reader:
    """Reads the tokens of one statement from left to right."""

    def __init__(self, tokens):
        self.tokens, self.at = tokens, 0
        self.line = tokens[0].line

    def peek(self, further=0):
        place = self.at + further
        return self.tokens[place] if place < len(self.tokens) else Token("end", "", self.line)

    def next(self):
        token = self.peek()
        self.at += 1
        return token

    def has(self, *texts):
        """Goes over one of these texts, if it is next."""
        if self.peek().kind != "string" and self.peek().text in texts:
            return self.next().text
        return None

    def want(self, text):
        if not self.has(text):
            self.fail(f"`{text}` expected, and there is `{self.peek().text}`")

    def fail(self, what):
        raise Fault(self.peek().line, what)

    def name(self, sign):
        token = self.next()
        if token.kind != "name" or token.text[0] != sign:
            self.at -= 1
            self.fail(f"a name with {sign} expected, and there is `{token.text}`")
        return plain_name(token.text)

    def word(self):
        token = self.next()
        if token.kind != "word":
            self.at -= 1
            self.fail(f"a word expected, and there is `{token.text}`")
        return token.text

    def number(self):
        token = self.next()
        if token.kind != "number" or not token.text.lstrip("-").isdigit():
            self.at -= 1
            self.fail(f"a number expected, and there is `{token.text}`")
        return int(token.text)

    def balanced(self):
        """The tokens from a bracket to the one that closes it."""
        start, depth = self.at, 0
        while True:
            token = self.next()
            if token.kind == "end":
                self.fail("a bracket is not closed")
            if token.kind == "sign":
                depth += (token.text in OPEN) - (token.text in CLOSE)
            if depth == 0:
                return self.tokens[start : self.at]

    # Types.
    def begins_type(self):
        token = self.peek()
        return token.kind == "name" and token.text[0] == "%" or token.kind == "word" and bool(SCALARS.match(token.text)) or token.text in ("[", "{", "<")

    def type(self):
        """A type, as text in one form."""
        token = self.next()
        if token.kind == "name" and token.text[0] == "%":
            found = plain_name(token.text)
        elif token.kind == "word" and SCALARS.match(token.text):
            found = "i" + str(int(token.text[1:])) if re.match(r"i\d", token.text) else token.text
        elif token.text in ("[", "<") and self.peek().kind in ("number", "word"):
            found = self.sequence(token.text)
        elif token.text == "{" or token.text == "<" and self.has("{"):
            found = self.fields(token.text)
        else:
            self.at -= 1
            self.fail(f"a type expected, and there is `{token.text}`")
        return self.ending(found)

    def sequence(self, sign):
        scalable = "vscale x " if self.has("vscale") and self.has("x") else ""
        count = self.number()
        self.want("x")
        element = self.type()
        self.want("]" if sign == "[" else ">")
        return f"{sign}{scalable}{count} x {element}{']' if sign == '[' else '>'}"

    def fields(self, sign):
        parts = []
        while not self.has("}"):
            if parts:
                self.want(",")
            parts.append(self.type())
        if sign == "<":
            self.want(">")
        inner = "{ " + ", ".join(parts) + " }" if parts else "{}"
        return f"<{inner}>" if sign == "<" else inner

    def ending(self, found):
        """A type with the stars, the address space and the parameters that follow it."""
        while True:
            if self.has("*"):
                found += "*"
            elif self.peek().text == "addrspace" and self.peek(1).text == "(":
                self.next()
                found += " addrspace" + "".join(token.text for token in self.balanced())
            elif self.peek().text == "(":
                found += " " + self.parameter_types()
            else:
                return found

    def parameter_types(self):
        self.want("(")
        parts = []
        while not self.has(")"):
            if parts:
                self.want(",")
            parts.append("..." if self.has("...") else self.type())
            self.decorations()
        return "(" + ", ".join(parts) + ")"

    # Words without effect, operands.
    def decorations(self):
        """Goes over attributes: a word, and then perhaps brackets, a number or a quoted text."""
        found = []
        while self.peek().kind in ("word", "string", "group") and not self.is_operand() and not self.begins_type():
            token = self.next()
            found.append(token.text)
            if self.has("="):
                self.next()
            elif self.peek().text == "(":
                found += [part.text for part in self.balanced()]
            elif self.peek().kind == "number" and self.peek(1).text not in (",", ")"):
                self.next()
        return found

    def is_operand(self):
        token = self.peek()
        return token.kind in ("name", "number") or token.kind == "word" and (token.text in CONSTANTS or token.text in EXPRESSIONS) or token.text in ("[", "{", "<")

    def value(self):
        """An operand without its type, as text. A constant expression is the text of its tokens."""
        token = self.peek()
        if token.kind == "name":
            return plain_name(self.next().text)
        if token.kind == "number" or token.text in CONSTANTS:
            return self.next().text
        start = self.at
        if token.kind == "word" and token.text in EXPRESSIONS:
            while self.peek().kind == "word":
                self.next()
                if self.peek().text == "(" and self.peek(-1).text == "inrange":
                    self.balanced()
            if self.peek().text != "(":
                self.fail(f"no constant: `{token.text}`")
            self.balanced()
        elif token.text in ("[", "{", "<"):
            self.balanced()
        elif token.kind == "string" and token.text.startswith("c"):
            self.next()
        else:
            self.fail(f"an operand expected, and there is `{token.text}`")
        return " ".join(plain_name(part.text) if part.kind == "name" else part.text for part in self.tokens[start : self.at])

    def operand(self):
        """An operand with its type before it."""
        of_type = self.type()
        self.decorations()
        return Operand(of_type, self.value())

    def flags(self):
        """Goes over words before a type."""
        while not self.begins_type() and self.peek().kind == "word":
            self.next()
            if self.peek().text == "(":
                self.balanced()

    def end(self):
        """Goes over an alignment and metadata; nothing else may follow."""
        while self.has(","):
            if self.has("align"):
                self.next()
            elif self.peek().kind == "meta":
                self.next()
                if self.peek().kind == "meta":
                    self.next()
                if self.peek().text in ("(", "{"):
                    self.balanced()
            else:
                self.fail(f"`{self.peek().text}` after an instruction")
        if self.peek().kind != "end":
            self.fail(f"`{self.peek().text}` after an instruction")


def plain_name(text):
    """A name, without quotes where it needs none."""
    inner = text[2:-1] if text[1:2] == '"' else ""
    return text[0] + inner if re.match(r"[-a-zA-Z$._][-a-zA-Z$._0-9]*$", inner) else text


def instruction(tokens, text):
    """The instruction of a statement, whose tokens stand in this text."""
    reader = Reader(tokens)
    name = None
    if reader.peek().kind == "name" and reader.peek(1).text == "=":
        name = reader.name("%")
        reader.next()
    if reader.peek().text in ("tail", "notail") and reader.peek(1).text == "call":
        reader.next()
    kind = reader.next().text
    read = READERS.get(kind)
    try:
        found = read(reader, kind) if read else None
    except Fault:
        if kind in ("br", "switch", "ret"):
            raise
        found = None
    if found is None:
        found = Instruction("other", reader.line, word=kind)
    found.name, found.text = name, text_of(tokens, text)
    return found


def text_of(tokens, text):
    """The part of a text from the first to the last of these tokens."""
    return text[tokens[0].start : tokens[-1].end]


def read_binary(reader, kind):
    reader.flags()
    first = reader.operand()
    reader.want(",")
    second = Operand(first.type, reader.value())
    reader.end()
    return Instruction(kind, reader.line, None, first.type, [first, second])


def read_one(reader, kind):
    reader.flags()
    operand = reader.operand()
    reader.end()
    return Instruction(kind, reader.line, None, operand.type, [operand])


def read_cast(reader, kind):
    reader.flags()
    operand = reader.operand()
    reader.want("to")
    to = reader.type()
    reader.end()
    return Instruction(kind, reader.line, None, to, [operand])


def read_compare(reader, kind):
    words = []
    while reader.peek().kind == "word" and not reader.begins_type():
        words.append(reader.next().text)
    first = reader.operand()
    reader.want(",")
    second = Operand(first.type, reader.value())
    reader.end()
    vector = re.match(r"<((?:vscale x )?\d+) x ", first.type)
    result = f"<{vector[1]} x i1>" if vector else "i1"
    return Instruction(kind, reader.line, None, result, [first, second], condition=words[-1])


def read_select(reader, kind):
    reader.flags()
    operands = [reader.operand()]
    for _ in range(2):
        reader.want(",")
        operands.append(reader.operand())
    reader.end()
    return Instruction(kind, reader.line, None, operands[1].type, operands)


def read_phi(reader, kind):
    reader.flags()
    of_type, operands, labels = reader.type(), [], []
    while not operands or reader.peek(1).text == "[" and reader.has(","):
        reader.want("[")
        operands.append(Operand(of_type, reader.value()))
        reader.want(",")
        labels.append(reader.name("%"))
        reader.want("]")
    reader.end()
    return Instruction(kind, reader.line, None, of_type, operands, labels=labels)


def ordering(reader):
    """Goes over the scope and the words of an atomic step."""
    if reader.has("syncscope"):
        reader.balanced()
    while reader.peek().kind == "word":
        reader.next()


def read_load(reader, kind):
    words = [reader.next().text for _ in range(2) if reader.peek().text in ("atomic", "volatile")]
    of_type = reader.type()
    reader.want(",")
    place = reader.operand()
    ordering(reader)
    reader.end()
    return Instruction(kind, reader.line, None, of_type, [place], words=words)


def read_store(reader, kind):
    words = [reader.next().text for _ in range(2) if reader.peek().text in ("atomic", "volatile")]
    value = reader.operand()
    reader.want(",")
    place = reader.operand()
    ordering(reader)
    reader.end()
    return Instruction(kind, reader.line, None, value.type, [value, place], words=words)


def read_alloca(reader, kind):
    of_type, count = reader.type(), None
    if reader.peek().text == "," and SCALARS.match(reader.peek(1).text):
        reader.next()
        count = reader.operand()
    reader.end()
    return Instruction(kind, reader.line, None, of_type, [count] if count else [])


def read_element(reader, kind):
    reader.flags()
    of_type, operands = reader.type(), []
    while reader.peek().text == "," and reader.peek(1).kind != "meta":
        reader.next()
        operands.append(reader.operand())
    reader.end()
    return Instruction(kind, reader.line, None, of_type, operands)


def read_call(reader, kind):
    while not reader.begins_type() and reader.peek().kind == "word":
        reader.next()
        if reader.peek().text == "(":
            reader.balanced()
        elif reader.peek().kind == "number":
            reader.next()
    of_type = reader.type()
    if reader.peek().kind != "name":
        return None
    callee = plain_name(reader.next().text)
    reader.want("(")
    operands, words = [], []
    while not reader.has(")"):
        if operands:
            reader.want(",")
        if reader.has("metadata"):
            metadata(reader)
            operands.append(Operand("metadata", ""))
            words.append([])
            continue
        argument = reader.type()
        words.append(reader.decorations())
        operands.append(Operand(argument, reader.value()))
    after = reader.decorations()
    reader.end()
    result = of_type[: of_type.index(" (")] if " (" in of_type else of_type
    return Instruction(kind, reader.line, None, result, operands, callee=callee, words=words, after=after)


def metadata(reader):
    """Goes over an argument of metadata."""
    while reader.peek().text not in (",", ")") or reader.peek().kind == "end":
        if reader.peek().text in ("(", "{"):
            reader.balanced()
        elif reader.next().kind == "end":
            reader.fail("metadata that does not end")


def read_br(reader, kind):
    operands, labels = [], []
    if not reader.has("label"):
        operands.append(reader.operand())
        reader.want(",")
        reader.want("label")
    labels.append(reader.name("%"))
    if operands:
        reader.want(",")
        reader.want("label")
        labels.append(reader.name("%"))
    reader.end()
    return Instruction(kind, reader.line, None, None, operands, labels=labels)


def read_switch(reader, kind):
    on = reader.operand()
    reader.want(",")
    reader.want("label")
    labels, cases = [reader.name("%")], []
    reader.want("[")
    while not reader.has("]"):
        cases.append(reader.operand())
        reader.want(",")
        reader.want("label")
        labels.append(reader.name("%"))
    reader.end()
    return Instruction(kind, reader.line, None, None, [on], labels=labels, cases=cases)


def read_ret(reader, kind):
    operands = [] if reader.has("void") else [reader.operand()]
    reader.end()
    return Instruction(kind, reader.line, None, operands[0].type if operands else "void", operands)


def read_unreachable(reader, kind):
    reader.end()
    return Instruction(kind, reader.line)


def read_fence(reader, kind):
    ordering(reader)
    reader.end()
    return Instruction(kind, reader.line)


def read_tuple(reader, kind):
    operands = [reader.operand()]
    rest = []
    while reader.peek().text == "," and reader.peek(1).kind != "meta":
        reader.next()
        if reader.peek().kind == "number":
            rest.append(reader.number())
        else:
            operands.append(reader.operand())
    reader.end()
    return Instruction(kind, reader.line, None, operands[0].type, operands, indices=rest)


def read_atomicrmw(reader, kind):
    reader.has("volatile")
    operation = reader.word()
    place = reader.operand()
    reader.want(",")
    value = reader.operand()
    ordering(reader)
    reader.end()
    return Instruction(kind, reader.line, None, value.type, [value, place], operation=operation)


def read_cmpxchg(reader, kind):
    reader.has("weak")
    reader.has("volatile")
    place = reader.operand()
    reader.want(",")
    wanted = reader.operand()
    reader.want(",")
    value = reader.operand()
    ordering(reader)
    reader.end()
    return Instruction(kind, reader.line, None, f"{{ {value.type}, i1 }}", [value, place, wanted])


READERS = {
    "icmp": read_compare, "fcmp": read_compare, "select": read_select, "phi": read_phi, "load": read_load, "store": read_store, "alloca": read_alloca,
    "getelementptr": read_element, "call": read_call, "br": read_br, "switch": read_switch, "ret": read_ret, "unreachable": read_unreachable,
    "fence": read_fence, "atomicrmw": read_atomicrmw, "cmpxchg": read_cmpxchg,
}
READERS.update({word: read_binary for word in BINARY} | {word: read_cast for word in CASTS})
READERS.update({word: read_one for word in ONE_OPERAND} | {word: read_tuple for word in TUPLES})


def parameters_of(reader):
    """The parameters after the name of a function, types and names, and the words of each."""
    reader.want("(")
    found, decorations = [], []
    while not reader.has(")"):
        if found:
            reader.want(",")
        if reader.has("..."):
            found.append(Operand("...", None))
            decorations.append([])
            continue
        of_type = reader.type()
        decorations.append(reader.decorations())
        found.append(Operand(of_type, reader.name("%") if reader.peek().kind == "name" else None))
    return found, decorations


def read_head(tokens, twice):
    """A line that declares or defines a function. Those of some groups of attributes return twice."""
    reader = Reader(tokens)
    reader.next()
    words = []
    while not reader.begins_type():
        words += reader.decorations() or [reader.next().text]
        if reader.peek().kind == "end":
            reader.fail("no head of a function")
    result = reader.type()
    name = reader.name("@")
    parameters, decorations = parameters_of(reader)
    rest = tokens[reader.at :]
    gc = next((rest[at + 1].text for at, token in enumerate(rest[:-1]) if token.text == "gc" and rest[at + 1].kind == "string"), None)
    is_twice = any(token.text == "returns_twice" or token.text in twice for token in rest)
    return Head(words, result, name, parameters, decorations, gc, is_twice)


def read_type(reader, module):
    name = reader.name("%")
    reader.want("=")
    reader.want("type")
    module.types[name] = reader.type()


def read_global(reader, module, text):
    name = reader.name("@")
    reader.want("=")
    words = []
    while reader.peek().text not in ("global", "constant"):
        if reader.peek().kind == "end" or reader.peek().text in ("alias", "ifunc"):
            reader.fail(f"{name} is no global with a type")
        words.append(reader.next().text)
        if reader.peek().text == "(":
            reader.balanced()
    words.append(reader.next().text)
    of_type = reader.type()
    value = reader.value() if reader.is_operand() or reader.peek().kind == "string" else None
    module.globals[name] = Global(name, words, of_type, value, text, reader.line)


def read(text):
    """The module of a text."""
    module, function = Module(), None
    lines = statements(tokens_of(text))
    for tokens in lines:
        if tokens[0].text == "attributes" and any(token.text == "returns_twice" for token in tokens):
            module.twice.add(tokens[1].text)
    for tokens in lines:
        if function is not None:
            function = in_body(function, tokens, text)
        elif tokens[0].text == "define":
            head = read_head(tokens, module.twice)
            linkage = next((word for word in head.words if word in ("internal", "private")), None)
            more = {"gc": head.gc, "linkage": linkage, "line": tokens[0].line, "words": head.decorations}
            function = module.functions[head.name] = Function(head.name, head.result, head.parameters, more)
        else:
            item(module, tokens, text)
    if function is not None:
        raise Fault(lines[-1][0].line, f"{function.name} does not end")
    for it in module.functions.values():
        number_all(it)
    return module


def item(module, tokens, text):
    """Reads an item of a module that is no defined function."""
    first = tokens[0]
    if first.text == "declare":
        head = read_head(tokens, module.twice)
        module.declared[head.name] = Declared(head.name, head.result, head.parameters, text_of(tokens, text), head.is_twice, first.line)
    elif first.kind == "name" and first.text[0] == "%":
        read_type(Reader(tokens), module)
    elif first.kind == "name":
        read_global(Reader(tokens), module, text_of(tokens, text))
    elif first.text == "target":
        module.targets.append(text_of(tokens, text))
    elif first.text not in ("source_filename", "attributes") and not first.text.startswith("$"):
        raise Fault(first.line, f"`{first.text}` begins no item that is known")


def number_all(function):
    """Gives parameters, blocks and values without a name the numbers that LLVM gives them."""
    count = 0

    def named(name, takes_one=True):
        nonlocal count
        count += takes_one and (name is None or name[1:].isdigit())
        return f"%{count - 1}" if takes_one and name is None else name

    function.parameters = [Operand(of_type, named(name, of_type != "...")) for of_type, name in function.parameters]
    for at, (label, body) in enumerate(function.blocks):
        function.blocks[at] = (named(label), body)
        for it in body:
            it.name = named(it.name, it.name is not None or it.kind == "call" and it.type != "void")


def in_body(function, tokens, text):
    """Reads a statement of a function; gives the function, or None where it ends."""
    if tokens[0].text == "}" and len(tokens) == 1:
        return None
    if tokens[0].kind == "label":
        function.blocks.append((plain_name("%" + tokens[0].text[:-1]), []))
        tokens = tokens[1:]
    elif not function.blocks or function.blocks[-1][1] and function.blocks[-1][1][-1].kind in ("br", "switch", "ret", "unreachable"):
        function.blocks.append((None, []))
    if tokens and tokens[0].kind != "group":
        function.blocks[-1][1].append(instruction(tokens, text))
    return function


def cast_of_global(text):
    """Of a constant that is the bitcast of a global: the type before, the name, the type after. Otherwise None."""
    if not text.startswith("bitcast"):
        return None
    reader = Reader(tokens_of(text))
    try:
        reader.next()
        reader.want("(")
        found = reader.type(), reader.name("@")
        reader.want("to")
        return (*found, reader.type())
    except Fault:
        return None


# Kinds of types.
def mapped(of_type, change):
    """A type in which each scalar was changed."""
    found = []
    for token in tokens_of(of_type):
        found.append(change(token.text) if token.kind == "word" and SCALARS.match(token.text) else token.text)
    return of_type if not found else Reader(tokens_of(" ".join(found))).type()


def width(of_type):
    """The bits of an integer type, or 0."""
    return int(of_type[1:]) if re.match(r"i\d+$", of_type) else 0


def is_pointer(of_type):
    return of_type == "ptr" or of_type.startswith("ptr addrspace") or of_type.endswith("*")


def parts(inner):
    """The parts of a list of types, at its commas."""
    found, depth = [""], 0
    for sign in inner:
        depth += (sign in OPEN) - (sign in CLOSE)
        if sign == "," and depth == 0:
            found.append("")
        else:
            found[-1] += sign
    return [part.strip() for part in found if part.strip()]


def element(of_type):
    """The length and the elements' type of an array, or None."""
    found = re.match(r"\[(\d+) x (.*)\]$", of_type)
    return (int(found[1]), found[2]) if found else None
