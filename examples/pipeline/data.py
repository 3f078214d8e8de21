"""Which pointers of a module lead to data: memory outside of the heap that holds no reference. `abstract.py` leaves such memory out.

Data is a global that is no integer, no float and no reference; a local of an array or a struct, or one whose address is passed on; and
what a function gives that is only declared, where no reference is passed to it. A pointer leads to data if each place that it may come
from does. A function that is only declared is taken to hold no reference, to touch no global that holds one, and to call nothing of the
module: docs/ABSTRACTION.md says so.
"""
import re

import ir

FLOATS = {"half": "i16", "bfloat": "i16", "float": "i32", "double": "i64"}
WIDE = ("x86_fp80", "fp128", "ppc_fp128")
KEPT = re.compile(r"@(new_|dg_|llvm\.gc(root|read|write)$)")
NEUTRAL = ("null", "undef", "poison", "zeroinitializer")
GONE = re.compile(
    r"@llvm\.(lifetime\.|dbg\.|assume$|donothing$|sideeffect$|invariant\.|prefetch|var\.annotation|experimental\.noalias|trap$|debugtrap$|ubsantrap$)"
)
NUMBERS = re.compile(
    r"@llvm\.(smax|smin|umax|umin|abs|ctpop|ctlz|cttz|bswap|bitreverse|fshl|fshr|[su](add|sub|mul|shl)\.(sat|with\.overflow)|expect|is\.constant\.i|"
    r"sqrt|powi|pow|sin|cos|tan|asin|acos|atan|atan2|sinh|cosh|tanh|sincos|exp|exp2|exp10|ldexp|log|log10|log2|fma|fmuladd|fabs|minnum|maxnum|minimum|"
    r"maximum|copysign|floor|ceil|trunc|rint|nearbyint|round|roundeven|lround|llround|lrint|llrint|canonicalize|is\.fpclass|fpto[su]i\.sat|"
    r"vector\.reduce)(\.|$)"
)
MOVES = re.compile(r"@llvm\.(memcpy|memmove|memset)\.")
TWICE = re.compile(r"@(_?_?sig)?_?setjmp\w*$|@vfork$|@(get|make|swap|set)context$|@_?longjmp\w*$")
IN_MEMORY = {"byval", "sret", "inalloca", "preallocated", "swifterror"}
POINTER_KINDS = ("getelementptr", "bitcast", "freeze", "phi", "select", "load", "call", "alloca")
BUNDLE_KINDS = ir.BINARY + ir.CASTS + ir.ONE_OPERAND + ir.TUPLES + ["icmp", "fcmp", "phi", "select"]


def number(of_type):
    """The integer type that stands for a type of numbers: itself, that of a float's bits, i64 for what is wider; or None."""
    bits = ir.width(of_type)
    if 1 <= bits <= 64:
        return of_type
    return FLOATS.get(of_type) or ("i64" if bits or of_type in WIDE else None)


def is_wide(of_type):
    return ir.width(of_type) > 64 or of_type in WIDE


class Data:
    """What is data in a module, and which values are bundles: structs, arrays and vectors of numbers in registers."""

    def __init__(self, module):
        self.m = module
        self.body = {name: [it for _, body in function.blocks for it in body] for name, function in module.functions.items()}
        self.claimed = set(self.find_claimed())
        self.globals = self.find_globals()
        self.calls = self.find_calls()
        self.escaping = {name: self.find_escaping(body) for name, body in self.body.items()}
        self.values = self.find_values()
        self.bundles = self.find_bundles()

    def find_claimed(self):
        """The structs whose cells the module claims."""
        names = list(self.m.types)
        for body in self.body.values():
            for it in body:
                if it.kind == "call" and it.callee == "@dg_alloc" and it.operands and re.match(r"\d+$", it.operands[0].value):
                    yield from names[int(it.operands[0].value) :][:1]
                if it.kind == "call" and it.callee.startswith("@new_"):
                    yield f"%struct.{it.callee[5:]}"

    def looks_claimed(self, function, it):
        """Whether what a call gives is used as a cell of the module."""
        uses = [other for other in self.body[function] if other.operands and other.operands[0].value == it.name]
        types = [it.type.rstrip("*")] + [(use.type or "").rstrip("*") for use in uses if use.kind in ("getelementptr", "bitcast")]
        return any(of_type in self.claimed for of_type in types)

    # Globals.
    def find_globals(self):
        found = {it.name for it in self.m.globals.values() if self.may_be_data(it)}
        before = None
        while before != found:
            before = set(found)
            for name in before:
                mentioned = set(re.findall(r'@(?:[-\w.$]+|"[^"]*")', self.m.globals[name].value or ""))
                if any(other not in found and other not in self.m.declared for other in map(ir.plain_name, mentioned)):
                    found.discard(name)
        return found

    def may_be_data(self, it):
        if it.value is None or is_wide(it.type):
            return True
        if ir.is_pointer(it.type):
            return it.value not in NEUTRAL and "thread_local" not in it.words
        return "thread_local" in it.words or number(it.type) is None

    # Values.
    def find_calls(self):
        """For each defined function the calls of it, each with the function that makes it; None where its address is taken."""
        found = {name: [] for name in self.m.functions}
        for name, body in self.body.items():
            for it in body:
                if it.kind == "call" and it.callee in found and found[it.callee] is not None:
                    found[it.callee].append((name, it))
                texts = [operand.value for operand in it.operands] if it.kind != "other" else re.findall(r'@(?:[-\w.$]+|"[^"]*")', it.text)
                for text in texts:
                    for mentioned in re.findall(r'@(?:[-\w.$]+|"[^"]*")', text):
                        if ir.plain_name(mentioned) in found:
                            found[ir.plain_name(mentioned)] = None
        for it in self.m.globals.values():
            for mentioned in re.findall(r'@(?:[-\w.$]+|"[^"]*")', it.value or ""):
                if ir.plain_name(mentioned) in found:
                    found[ir.plain_name(mentioned)] = None
        return found

    @staticmethod
    def find_escaping(body):
        """The names of slots of numbers that are used otherwise than by loads and stores."""
        kept = {it.name for it in body if it.kind == "alloca" and not it.operands and number(it.type) and not is_wide(it.type)}
        casts = {it.name: it.operands[0].value for it in body if it.kind == "bitcast" and it.operands[0].value in kept}
        found = set()
        for it in body:
            if it.kind == "bitcast" and it.name in casts or it.kind == "call" and GONE.match(it.callee):
                continue
            places = {"load": it.operands[:1], "store": it.operands[1:]}.get(it.kind, [])
            text = [operand.value for operand in it.operands if not any(operand is place for place in places)]
            for name in text if it.kind != "other" else re.findall(r'%(?:[-\w.$]+|"[^"]*")', it.text):
                found.add(casts.get(name, name))
            found |= {casts[place.value] for place in places if place.value in casts}
        return kept & found

    def is_root(self, function, it):
        """Whether an instruction makes a pointer to data."""
        if it.kind == "alloca":
            return it.name in self.escaping[function] or not (number(it.type) or ir.is_pointer(it.type)) or bool(it.operands) or is_wide(it.type)
        return it.kind == "call" and self.is_foreign(it) and not self.keeps_call(function, it)

    def is_foreign(self, it):
        """Whether a call is one of a function that is only declared, or of C's functions that move bytes."""
        name = it.callee
        return name.startswith("@") and name not in self.m.functions and not KEPT.match(name) and not GONE.match(name) and not NUMBERS.match(name) and (
            MOVES.match(name) is not None or not name.startswith("@llvm.")
        )

    def keeps_call(self, function, it):
        """Whether a call of a declared function has to stay: a reference may be passed to it, or it returns twice."""
        known = self.m.declared.get(it.callee)
        if self.looks_claimed(function, it) or TWICE.match(it.callee) or known is None or known.is_twice or any(word == "returns_twice" or word in self.m.twice for word in it.after):
            return True
        return not all(self.is_harmless(function, operand) for operand in it.operands) or not self.is_harmless_type(it.type)

    def is_harmless(self, function, operand):
        """Whether an argument is a number, or leads to data."""
        if number(operand.type):
            return "ptrtoint" not in operand.value or self.is_data(function, operand.value)
        if ir.is_pointer(operand.type):
            return operand.value in NEUTRAL or self.is_data(function, operand.value)
        return self.has_numbers_only(operand.type)

    def is_harmless_type(self, of_type):
        return of_type == "void" or bool(number(of_type)) or ir.is_pointer(of_type) or self.has_numbers_only(of_type)

    def has_numbers_only(self, of_type):
        """Whether a type is a struct, an array or a vector of numbers."""
        if of_type in self.m.types:
            return self.has_numbers_only(self.m.types[of_type])
        if of_type.startswith(("{", "<{")):
            inner = of_type.strip("<>")[1:-1]
            return all(number(part) or self.has_numbers_only(part) for part in ir.parts(inner))
        found = re.match(r"[\[<](?:vscale x )?\d+ x (.*)[\]>]$", of_type)
        return bool(found) and bool(number(found[1]) or self.has_numbers_only(found[1]))

    def is_data(self, function, text):
        """Whether an operand leads to data. Null does not."""
        if text.startswith("%"):
            return (function, text) in self.values
        if text.startswith("@"):
            return text in self.globals
        mentioned = [ir.plain_name(name) for name in re.findall(r'@(?:[-\w.$]+|"[^"]*")', text)]
        return bool(mentioned) and all(name in self.globals for name in mentioned) and "inttoptr" not in text

    def sources(self, function, it):
        """From where a pointer comes: operands as (function, text), or None where it is not known. A root has no sources."""
        if self.is_root(function, it):
            return []
        if it.kind in ("getelementptr", "bitcast", "freeze"):
            return [(function, it.operands[0].value)] if ir.is_pointer(it.operands[0].type) else None
        if it.kind == "load":
            return [(function, it.operands[0].value)]
        if it.kind in ("phi", "select"):
            return [(function, operand.value) for operand in it.operands if it.kind == "phi" or operand is not it.operands[0]]
        if it.kind == "call" and it.callee.startswith("@llvm.threadlocal.address."):
            return [(function, it.operands[0].value)]
        if it.kind == "call" and it.callee in self.m.functions:
            return [(it.callee, other.operands[0].value) for other in self.body[it.callee] if other.kind == "ret" and other.operands]
        return None

    def given(self, function, at):
        """What is passed for a parameter: operands, or None where it is not known."""
        calls = self.calls[function]
        if function == "@main" and calls == []:
            return []
        if not calls or any(at >= len(it.operands) for _, it in calls):
            return None
        return [(caller, it.operands[at].value) for caller, it in calls]

    def is_pointer(self, it):
        made = it.type if it.kind != "getelementptr" else "ptr"
        return bool(it.name) and it.kind in POINTER_KINDS and (it.kind == "alloca" or ir.is_pointer(made))

    def find_values(self):
        """The names that lead to data: first all pointers, then those that may come from elsewhere are taken away, until none is."""
        items = {(name, it.name): it for name, body in self.body.items() for it in body if self.is_pointer(it)}
        places = {(name, parameter): at for name, function in self.m.functions.items() for at, (of_type, parameter) in enumerate(function.parameters) if ir.is_pointer(of_type)}
        self.values = set(items) | set(places)

        def comes_from(key):
            return self.sources(key[0], items[key]) if key in items else self.given(key[0], places[key])

        def stays(key):
            found = comes_from(key)
            if found is None or key in items and items[key].kind in ("alloca",) and not self.is_root(key[0], items[key]):
                return False
            return all(text in NEUTRAL or self.is_data(name, text) for name, text in found)

        while gone := {key for key in self.values if not stays(key)}:
            self.values -= gone
        reached = {key for key in self.values if not comes_from(key)}
        while more := {key for key in self.values - reached if any(not text.startswith("%") and text not in NEUTRAL or (name, text) in reached for name, text in comes_from(key))}:
            reached |= more
        self.values = reached
        # What was taken for data because only null comes there is none; so what needs it is looked at again.
        while gone := {key for key in self.values if not stays(key)}:
            self.values -= gone
        return self.values

    def gives_data(self, function):
        """Whether a defined function returns a pointer to data."""
        if not ir.is_pointer(self.m.functions[function].result):
            return False
        found = [it.operands[0].value for it in self.body[function] if it.kind == "ret" and it.operands]
        return any(self.is_data(function, text) for text in found) and all(text in NEUTRAL or self.is_data(function, text) for text in found)

    # Bundles.
    def made(self, it):
        """The type of what an instruction makes."""
        of_type = it.type or ""
        if it.kind == "extractelement":
            found = re.match(r"<(?:vscale x )?\d+ x (.*)>$", of_type)
            return found[1] if found else ""
        for index in it.indices if it.kind == "extractvalue" else ():
            of_type = self.m.types.get(of_type, of_type)
            array = ir.element(of_type)
            if not array and not of_type.startswith("{"):
                return ""
            of_type = array[1] if array else ir.parts(of_type[1:-1])[index]
        return of_type

    def find_bundles(self):
        items = {(name, it.name): it for name, body in self.body.items() for it in body if it.name and self.has_numbers_only(self.made(it))}

        def stays(key):
            name, it = key[0], items[key]
            if it.kind == "cmpxchg" or it.kind == "load" and self.is_data(name, it.operands[0].value):
                return True
            if it.kind == "call":
                return bool(NUMBERS.match(it.callee)) or self.is_foreign(it) and not self.keeps_call(name, it)
            if it.kind not in BUNDLE_KINDS:
                return False
            return all(number(operand.type) or not operand.value.startswith("%") or (name, operand.value) in found for operand in it.operands)

        found = {key for key, it in items.items() if it.kind != "alloca" and it.kind != "getelementptr"}
        while gone := {key for key in found if not stays(key)}:
            found -= gone
        return found
