"""Small modules that break a rule behind a form that dgc does not read, each beside one that keeps it.

A line that begins with `-` stands in the module that breaks the rule, one with `+` in the one that keeps it, and each other line in both.
"""
HEAD = """%Node = type { i64, ptr }
%Row = type { i64, [4 x i64] }
@top = global ptr null
@row = global ptr null
@data = constant [4 x i64] [i64 1, i64 2, i64 3, i64 4]
@text = private constant [3 x i8] c"ab\\00"
@store = global [4 x ptr] zeroinitializer
declare ptr @dg_alloc(i32)
declare void @dg_safepoint()
declare void @llvm.gcroot(ptr, ptr)
declare void @llvm.gcwrite(ptr, ptr, ptr)
declare void @ext(ptr)
declare i64 @ext_number(i64)
declare ptr @ext_find(i64)
declare void @ext_print(ptr, ...)
declare void @ext_sort(ptr, ptr)
declare i32 @setjmp(ptr) returns_twice
declare void @llvm.memcpy.p0.p0.i64(ptr, ptr, i64, i1)
declare i64 @llvm.umin.i64(i64, i64)
declare i64 @llvm.smin.i64(i64, i64)
define i64 @work(i64 %x) gc "shadow-stack" {
entry:
  %s = alloca ptr
  call void @llvm.gcroot(ptr %s, ptr null)
  %new = call ptr @dg_alloc(i32 0)
  %none = icmp eq ptr %new, null
  br i1 %none, label %out, label %some
some:
  store ptr %new, ptr %s
  %big = call ptr @dg_alloc(i32 1)
  %nobig = icmp eq ptr %big, null
  br i1 %nobig, label %out, label %in
in:
"""
LAST = """  br label %out
out:
  ret i64 0
}
"""

TRAPS = {
    "a reference is passed": "- call void @ext(ptr %new)\n+ call void @ext(ptr @text)",
    "an address in a cell is passed": "  %p = getelementptr %Node, ptr %new, i32 0, i32 0\n- call void @ext(ptr %p)\n+ call void @ext(ptr null)",
    "a reference is passed after the form": "- call void (ptr, ...) @ext_print(ptr @text, ptr %new)\n+ call void (ptr, ...) @ext_print(ptr @text, i64 %x)",
    "a reference is passed as a number": "- %n = ptrtoint ptr %new to i64\n+ %n = ptrtoint ptr @data to i64\n  %m = call i64 @ext_number(i64 %n)",
    "a number becomes a reference": "  %n = sdiv i64 %x, 3\n- %r = inttoptr i64 %n to ptr\n+ %r = load ptr, ptr @top\n  store ptr %r, ptr %s",
    "a reference is kept in data": "  %p = getelementptr [4 x ptr], ptr @store, i64 0, i64 1\n- store ptr %new, ptr %p\n+ store ptr @data, ptr %p\n  call void @dg_safepoint()",
    "a reference is kept in the first word of data": "- store ptr %new, ptr @store\n+ store ptr null, ptr @store",
    "a reference is kept in a local": "  %local = alloca [2 x ptr]\n- store ptr %new, ptr %local\n+ store ptr @text, ptr %local\n  call void @dg_safepoint()",
    "a cell is copied into data": "  %local = alloca [2 x i64]\n- call void @llvm.memcpy.p0.p0.i64(ptr %local, ptr %new, i64 16, i1 false)\n"
    "+ call void @llvm.memcpy.p0.p0.i64(ptr %local, ptr @data, i64 16, i1 false)",
    "data is copied into a cell": "- call void @llvm.memcpy.p0.p0.i64(ptr %new, ptr @data, i64 16, i1 false)\n+ call void @ext(ptr @data)",
    "data or a reference is chosen": "  %c = icmp eq i64 %x, 5\n- %p = select i1 %c, ptr %new, ptr @data\n+ %p = select i1 %c, ptr @text, ptr @data\n  %v = load i64, ptr %p",
    "a pointer to data is stored in a cell": "  %p = getelementptr %Node, ptr %new, i32 0, i32 1\n- store ptr @data, ptr %p\n+ store ptr null, ptr %p",
    "a pointer to data is stored in a global": "- call void @llvm.gcwrite(ptr @data, ptr null, ptr @top)\n+ call void @llvm.gcwrite(ptr %new, ptr null, ptr @top)",
    "a call returns twice": "  %local = alloca [25 x i64]\n- %j = call i32 @setjmp(ptr %local)\n+ call void @ext(ptr %local)",
    "a function is passed": "- call void @ext_sort(ptr @data, ptr @helper)\n+ call void @ext_sort(ptr @data, ptr null)",
    "what is found is used as a cell": "  %f = call ptr @ext_find(i64 %x)\n- %p = getelementptr %Node, ptr %f, i32 0, i32 0\n+ %p = getelementptr i64, ptr %f, i64 0\n  %v = load i64, ptr %p",
    "a reference is exchanged": "- %old = atomicrmw xchg ptr @top, ptr %new seq_cst\n+ %old = load ptr, ptr @top\n  store ptr %old, ptr %s",
    "a reference is compared and exchanged": "- %pair = cmpxchg ptr @top, ptr null, ptr %new seq_cst seq_cst\n+ call void @llvm.gcwrite(ptr %new, ptr null, ptr @top)",
    "a vector is loaded from a cell": "- %v = load <2 x i64>, ptr %new\n+ %v = load <2 x i64>, ptr @data\n  %e = extractelement <2 x i64> %v, i32 1",
    "a vector is stored into a cell": "- store <2 x i64> <i64 1, i64 2>, ptr %new\n+ %w = add <2 x i64> <i64 1, i64 2>, <i64 1, i64 2>",
    "a stale reference stays behind a freeze": "  %f = freeze ptr %new\n- call void @dg_safepoint()\n  %p = getelementptr %Node, ptr %f, i32 0, i32 0\n  %v = load i64, ptr %p",
    "a stale reference is used behind a division": "- call void @dg_safepoint()\n  %q = udiv i64 %x, 7\n  %p = getelementptr %Node, ptr %new, i32 0, i32 0\n  store i64 %q, ptr %p",
    "a barrier is missing behind a call": "  %n = call i64 @ext_number(i64 %x)\n- store ptr %new, ptr @top\n+ call void @llvm.gcwrite(ptr %new, ptr null, ptr @top)",
    "a remainder is as large as the array is long": "- %i = urem i64 %x, 5\n+ %i = urem i64 %x, 3\n{row}",
    "a remainder by zero": "- %i = urem i64 %x, 0\n+ %i = urem i64 %x, 1\n{row}",
    "a signed remainder": "- %i = srem i64 %x, 3\n+ %i = urem i64 %x, 4\n{row}",
    "a quotient": "- %i = udiv i64 %x, 3\n+ %i = and i64 %x, 3\n{row}",
    "a shift leaves too much": "- %i = lshr i64 %x, 61\n+ %i = lshr i64 %x, 62\n{row}",
    "a signed shift": "- %i = ashr i64 %x, 62\n+ %i = lshr i64 %x, 63\n{row}",
    "a signed minimum": "  %y = call i64 @ext_number(i64 %x)\n- %i = call i64 @llvm.smin.i64(i64 %y, i64 3)\n+ %i = call i64 @llvm.umin.i64(i64 %y, i64 3)\n{row}",
    "a minimum of the array's length": "- %i = call i64 @llvm.umin.i64(i64 %x, i64 4)\n+ %i = call i64 @llvm.umin.i64(i64 3, i64 %x)\n{row}",
    "a number of a declared function": "- %i = call i64 @ext_number(i64 %x)\n+ %i = and i64 %x, 2\n{row}",
    "a number of constant data": "  %p = getelementptr [4 x i64], ptr @data, i64 0, i64 2\n- %i = load i64, ptr %p\n+ %i = urem i64 %x, 2\n{row}",
    "a call of a value": "  %f = load ptr, ptr @store\n- call void %f(i64 1)\n+ call void @ext(ptr %f)",
    "a cell is passed in memory": "- call void @by_value(ptr byval(%Node) %new)\n+ call void @by_value(ptr null)\n  %e = sdiv i64 %x, 2",
    "data holds the place of a reference": "- %p = load ptr, ptr @places\n+ %p = load ptr, ptr @store\n  %v = load i64, ptr %p",
    "a parameter is data in one call only": "  call void @takes(ptr @data)\n- call void @takes(ptr %new)\n+ call void @takes(ptr @text)",
    "a reference for each thread": "- %v = load ptr, ptr @mine\n+ %v = load ptr, ptr @top\n  store ptr %v, ptr %s",
}
MORE = {
    "a function is passed": "define void @helper(i64 %n) {\n  ret void\n}\n",
    "a cell is passed in memory": "- define void @by_value(ptr byval(%Node) %p) gc \"shadow-stack\" {\n+ define void @by_value(ptr %p) gc \"shadow-stack\" {\n  ret void\n}\n",
    "data holds the place of a reference": "- @places = global [1 x ptr] [ptr @top]\n",
    "a parameter is data in one call only": "define void @takes(ptr %p) gc \"shadow-stack\" {\n  %v = load i64, ptr %p\n  ret void\n}\n",
    "a reference for each thread": "- @mine = thread_local global ptr null\n",
}
ROW = """  %place = getelementptr %Row, ptr %big, i64 0, i32 1, i64 %i
  store i64 1, ptr %place"""


def part(text, sign):
    """The lines of a text that stand in the module of this sign."""
    lines = [line[2:] if line[:2] in ("- ", "+ ") else line for line in text.split("\n") if line[:1] not in "-+" or line[:1] in (sign, "")]
    return "\n".join(line if line.startswith((" ", "define", "}", "@")) or not line else "  " + line for line in lines)


def modules():
    """Each trap: its name, the module that breaks the rule, and the one that keeps it."""
    for name, text in TRAPS.items():
        body, more = text.replace("{row}", ROW), MORE.get(name, "")
        found = [HEAD.split("declare", 1) for _ in "-+"]
        yield name, *("".join([front, items(more, sign, False), "declare", rest, part(body, sign), "\n", LAST, items(more, sign, True)]) for (front, rest), sign in zip(found, "-+"))


def items(more, sign, is_function):
    """The globals, or the functions, that a trap has besides."""
    text = part(more, sign) + "\n" if more else ""
    return text if bool("define" in more) == is_function else ""
