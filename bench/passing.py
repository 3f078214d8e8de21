#!/usr/bin/env python3
"""Asks `dgc make` for certificates of drawn modules whose references pass through calls under types that tell no layout.

    passing.py DGC [--modules N] [--seed S] [--keep FOLDER]

Draws N modules, each once with typed pointers and once with opaque ones. Their functions take and return references of type `i8*`
or `ptr`: they claim cells and return them, hand parameters on, call themselves and one another, choose references by phis and
selects, follow links, and put references into cells and globals. Others keep a fresh cell in a slot over branches, and store into it
plainly at the end, or lose it there: on one of the ways that meet the slot is written again, or a phi that was the cell is another one. The text tells the layout of each
reference that is used: by its claim, by a call, or by a getelementptr on it. Each module has a certificate, which `dgc check` has to accept. `dgc make` has to make one too, and `check` has to
accept that. Prints how many were made, and each module for which none was. Ends with status 1 where there is one.
"""
import argparse
import collections
import os
import random
import subprocess
import sys
import tempfile

Ref = collections.namedtuple("Ref", "name layout nonnull")
Loop = collections.namedtuple("Loop", "before head body left at onward place known")


class Typed:
    """How a module with typed pointers writes references."""

    ref, place = "i8*", "i8**"

    def held(self, layout):
        return f"%{layout}*"

    def place_of(self, body, cell, field):
        """The place of a field of a cell, as its reference type has it, and as the runtime takes it."""
        layout, held = cell.layout, body.module.fields[cell.layout][field]
        cast = body.made(f"bitcast i8* {cell.name} to %{layout}*")
        address = body.made(f"getelementptr %{layout}, %{layout}* {cast}, i32 0, i32 {field}")
        if held == "i64":
            return address, None
        return address, body.made(f"bitcast %{held}** {address} to i8**")

    def load(self, body, cell, field):
        held = body.module.fields[cell.layout][field]
        address, place = self.place_of(body, cell, field)
        way = body.draw.randrange(3)
        if way == 0:
            loaded = body.made(f"load %{held}*, %{held}** {address}")
            return body.made(f"bitcast %{held}* {loaded} to i8*")
        if way == 1:
            return body.made(f"load i8*, i8** {place}")
        return body.made(f"call i8* @llvm.gcread(i8* {cell.name}, i8** {place})")

    def global_place(self, layout):
        return f"bitcast (%{layout}** @g{layout} to i8**)"

    def load_global(self, body, layout):
        if body.draw.random() < 0.5:
            return body.made(f"call i8* @llvm.gcread(i8* null, i8** {self.global_place(layout)})")
        loaded = body.made(f"load %{layout}*, %{layout}** @g{layout}")
        return body.made(f"bitcast %{layout}* {loaded} to i8*")

    def slot(self, body, layout):
        slot = body.made(f"alloca %{layout}*")
        root = body.made(f"bitcast %{layout}** {slot} to i8**")
        body.add(f"call void @llvm.gcroot(i8** {root}, i8* null)")
        return slot

    def store_slot(self, body, slot, ref):
        cast = body.made(f"bitcast i8* {ref.name} to %{ref.layout}*")
        body.add(f"store %{ref.layout}* {cast}, %{ref.layout}** {slot}")

    def clear_slot(self, body, slot, layout):
        body.add(f"store %{layout}* null, %{layout}** {slot}")

    def load_slot(self, body, slot, layout):
        loaded = body.made(f"load %{layout}*, %{layout}** {slot}")
        return body.made(f"bitcast %{layout}* {loaded} to i8*")

    def store_plainly(self, body, cell, field, ref):
        held = body.module.fields[cell.layout][field]
        address, _ = self.place_of(body, cell, field)
        cast = body.made(f"bitcast i8* {ref.name} to %{held}*")
        body.add(f"store %{held}* {cast}, %{held}** {address}")

    def store_number(self, body, cell, field):
        address, _ = self.place_of(body, cell, field)
        body.add(f"store i64 %n, i64* {address}")

    def head(self, module):
        return []


class Opaque:
    """How a module with opaque pointers writes references."""

    ref, place = "ptr", "ptr"

    def held(self, layout):
        return "ptr"

    def place_of(self, body, cell, field):
        if field == 0 and cell.name in body.told and body.draw.random() < 0.5:
            return cell.name
        return body.made(f"getelementptr %{cell.layout}, ptr {cell.name}, i32 0, i32 {field}")

    def load(self, body, cell, field):
        place = self.place_of(body, cell, field)
        if body.draw.random() < 0.5:
            return body.made(f"load ptr, ptr {place}")
        return body.made(f"call ptr @llvm.gcread(ptr {cell.name}, ptr {place})")

    def global_place(self, layout):
        return f"@g{layout}"

    def load_global(self, body, layout):
        return body.made(f"load ptr, ptr @g{layout}")

    def slot(self, body, layout):
        slot = body.made("alloca ptr")
        body.add(f"call void @llvm.gcroot(ptr {slot}, ptr null)")
        body.module.shapes.append(f"root @{body.name} {slot} ref {layout}")
        return slot

    def store_slot(self, body, slot, ref):
        body.add(f"store ptr {ref.name}, ptr {slot}")

    def clear_slot(self, body, slot, layout):
        body.add(f"store ptr null, ptr {slot}")

    def load_slot(self, body, slot, layout):
        return body.made(f"load ptr, ptr {slot}")

    def store_plainly(self, body, cell, field, ref):
        body.add(f"store ptr {ref.name}, ptr {self.place_of(body, cell, field)}")

    def store_number(self, body, cell, field):
        body.add(f"store i64 %n, ptr {self.place_of(body, cell, field)}")

    def head(self, module):
        words = []
        for layout, fields in module.fields.items():
            words += [f"layout {layout} {at} ref {held}" for at, held in enumerate(fields) if held != "i64"]
        return words + [f"global @g{layout} ref {layout}" for layout in module.fields]


class Body:
    """A function that is being written, and its section of the certificate."""

    def __init__(self, module, name):
        self.module, self.name = module, name
        self.draw, self.form = module.draw, module.form
        self.parameters, self.result, self.mark = module.signatures[name]
        self.lines, self.section, self.count, self.label = [], [f"function @{name} {self.mark}"], 0, "entry"
        self.told = set()
        self.known = [Ref(f"%p{at}", layout, False) for at, layout in enumerate(self.parameters)]
        self.section += [f"param {ref.name} ref {ref.layout}" for ref in self.known]
        self.section += [f"result ref {self.result}"] * bool(self.result)

    def fresh_name(self):
        self.count += 1
        return f"v{self.count}"

    def add(self, line):
        self.lines.append("  " + line)

    def made(self, line):
        name = "%" + self.fresh_name()
        self.add(f"{name} = {line}")
        return name

    def learn(self, name, layout, nonnull=False):
        self.known.append(Ref(name, layout, nonnull))
        return self.known[-1]

    def begin(self, label, more=()):
        """Begins a block, where the references are known that are known now."""
        self.label = label
        self.lines.append(f"{label}:")
        self.section += [f"block %{label}", "%n i64", *more]
        self.section += [f"{ref.name} ref {ref.layout}{' nonnull' * ref.nonnull}" for ref in self.known]

    def of_layout(self, layout):
        """A reference of this layout, or null."""
        found = [ref.name for ref in self.known if ref.layout == layout]
        return self.draw.choice(found) if found and self.draw.random() < 0.9 else "null"

    def give_back(self):
        if self.result:
            self.add(f"ret {self.form.ref} {self.of_layout(self.result)}")
        else:
            self.add("ret void")

    def claim(self, layout=None):
        layout = layout or self.draw.choice(list(self.module.fields))
        number = list(self.module.fields).index(layout)
        cell = self.learn(self.made(f"call {self.form.ref} @dg_alloc(i32 {number})"), layout)
        self.told.add(cell.name)
        return cell

    def call(self, *_):
        names = [name for name, (_, _, mark) in self.module.signatures.items() if mark == "none" or self.mark == "may"]
        name = self.draw.choice(names)
        parameters, result, mark = self.module.signatures[name]
        arguments = ", ".join([f"{self.form.ref} {self.of_layout(layout)}" for layout in parameters] + ["i64 %n"])
        if mark == "may":
            self.known = []
        if not result:
            return self.add(f"call void @{name}({arguments})")
        return self.learn(self.made(f"call {self.form.ref} @{name}({arguments})"), result)

    def test(self, ref, again=None):
        """Goes on with a reference where it is not null, and else returns."""
        test, none, some = self.made(f"icmp eq {self.form.ref} {ref.name}, null"), self.fresh_name(), self.fresh_name()
        self.add(f"br i1 {test}, label %{none}, label %{some}")
        self.begin(none)
        self.give_back()
        self.known = [ref._replace(nonnull=True) if one.name == ref.name else one for one in self.known]
        self.begin(some)
        return ref._replace(nonnull=True)

    def tested(self, want=lambda ref: True):
        """A reference that is not null, if there is one that is wanted."""
        found = [ref for ref in self.known if want(ref)]
        if not found:
            return None
        ref = self.draw.choice(found)
        return ref if ref.nonnull else self.test(ref)

    def links(self, layout):
        return [at for at, held in enumerate(self.module.fields[layout]) if held != "i64"]

    def follow(self):
        cell = self.tested(lambda ref: self.links(ref.layout))
        if cell:
            field = self.draw.choice(self.links(cell.layout))
            self.learn(self.form.load(self, cell, field), self.module.fields[cell.layout][field])

    def link(self):
        cell = self.tested(lambda ref: self.links(ref.layout))
        if cell:
            field = self.draw.choice(self.links(cell.layout))
            value = self.of_layout(self.module.fields[cell.layout][field])
            place = self.form.place_of(self, cell, field)
            place = place[1] if isinstance(place, tuple) else place
            self.add(f"call void @llvm.gcwrite({self.form.ref} {value}, {self.form.ref} {cell.name}, {self.form.place} {place})")

    def publish(self):
        layout = self.draw.choice(list(self.module.fields))
        value, place = self.of_layout(layout), self.form.global_place(layout)
        self.add(f"call void @llvm.gcwrite({self.form.ref} {value}, {self.form.ref} null, {self.form.place} {place})")

    def take(self):
        layout = self.draw.choice(list(self.module.fields))
        self.learn(self.form.load_global(self, layout), layout)

    def choose(self):
        if self.known:
            layout = self.draw.choice(self.known).layout
            one, other = self.of_layout(layout), self.of_layout(layout)
            if (one, other) != ("null", "null"):
                test = self.made("icmp ult i64 %n, 3")
                self.learn(self.made(f"select i1 {test}, {self.form.ref} {one}, {self.form.ref} {other}"), layout)

    def join(self):
        """Two ways that meet again, each with a reference of one layout."""
        layout = self.draw.choice(list(self.module.fields))
        one, other, met = self.fresh_name(), self.fresh_name(), self.fresh_name()
        self.add(f"br i1 {self.made('icmp ult i64 %n, 7')}, label %{one}, label %{other}")
        before, comes, left = list(self.known), [], []
        for label in (one, other):
            self.known = list(before)
            self.begin(label)
            for _ in range(self.draw.randrange(2)):
                self.draw.choice([self.claim, self.call, self.take, self.choose])()
            comes.append((self.of_layout(layout), label))
            left.append(self.known)
            self.add(f"br label %{met}")
        self.known = [ref for ref in before if all(ref in known for known in left)]
        phi = "%" + self.fresh_name()
        if [name for name, _ in comes] != ["null", "null"]:
            self.learn(phi, layout)
        self.begin(met)
        self.add(f"{phi} = phi {self.form.ref} " + ", ".join(f"[ {name}, %{label} ]" for name, label in comes))

    def compare(self):
        if self.known:
            self.made(f"icmp ne {self.form.ref} {self.draw.choice(self.known).name}, null")

    def cast(self):
        if self.known and self.form.ref == "i8*":
            ref = self.draw.choice(self.known)
            self.made(f"bitcast i8* {ref.name} to %{ref.layout}*")

    def write(self):
        steps = [self.claim, self.call, self.call, self.follow, self.link, self.publish, self.take, self.choose, self.join, self.compare, self.cast]
        if self.mark == "may" and not self.parameters:
            self.add("call void @dg_safepoint()")
        for _ in range(self.draw.randrange(6)):
            self.draw.choice(steps)()
        if self.result and self.draw.random() < 0.5:
            self.claim(self.result)
        self.give_back()

    def keep(self, layout):
        """A cell is claimed and kept in a slot, and goes on where it is not null: the slot, the cell, and what is known of both."""
        slot = self.form.slot(self, layout)
        cell = self.claim(layout)
        self.form.store_slot(self, slot, cell)
        again = self.form.load_slot(self, slot, layout)
        none, some = self.fresh_name(), self.fresh_name()
        self.add(f"br i1 {self.made(f'icmp eq {self.form.ref} {again}, null')}, label %{none}, label %{some}")
        self.known.remove(cell)
        self.begin(none)
        self.add("unreachable")
        kept = [f"{cell.name} ref {layout} nonnull fresh", f"slot {slot} nonnull holds {cell.name}"]
        self.begin(some, kept)
        return slot, cell._replace(nonnull=True), kept

    def with_links(self):
        """A layout with a word that is a reference."""
        return self.draw.choice([layout for layout in self.module.fields if self.links(layout)])

    def count_in(self, cell):
        """Stores a number into a cell."""
        numbers = [at for at, held in enumerate(self.module.fields[cell.layout]) if held == "i64"]
        self.form.store_number(self, cell, self.draw.choice(numbers))

    def write_kept(self):
        """A fresh cell is kept in a slot over branches, and at the end a parameter is stored into it plainly."""
        layout = self.with_links()
        slot, _, kept = self.keep(layout)
        for _ in range(self.draw.randrange(1, 4)):
            one, other, met = self.fresh_name(), self.fresh_name(), self.fresh_name()
            self.add(f"br i1 {self.made('icmp ult i64 %n, 9')}, label %{one}, label %{other}")
            for label in (one, other):
                self.begin(label, kept)
                if self.draw.random() < 0.6:
                    self.count_in(Ref(self.form.load_slot(self, slot, layout), layout, True))
                self.add(f"br label %{met}")
            self.begin(met, kept)
        field = self.draw.choice(self.links(layout))
        last = Ref(self.form.load_slot(self, slot, layout), layout, True)
        held = self.module.fields[layout][field]
        value = Ref(self.of_layout(held), held, False)
        self.form.store_plainly(self, last, field, value)
        self.give_back()

    def write_slot(self, slot, layout):
        """The slot holds something else from here on."""
        name = self.of_layout(layout)
        if name == "null":
            self.form.clear_slot(self, slot, layout)
        else:
            self.form.store_slot(self, slot, Ref(name, layout, False))

    def lose_on_a_way(self, slot, cell, kept):
        """One of two ways that meet writes the slot again."""
        ways, met = [self.fresh_name(), self.fresh_name()], self.fresh_name()
        self.add(f"br i1 {self.made('icmp ult i64 %n, 9')}, label %{ways[0]}, label %{ways[1]}")
        losing = self.draw.choice(ways)
        for label in ways:
            self.begin(label, kept)
            if label == losing:
                self.write_slot(slot, cell.layout)
            self.add(f"br label %{met}")
        self.known.append(cell)
        self.begin(met)

    def enter_loop(self, *known):
        """Begins a loop of four turns and its body. These references are known in it, but not as fresh."""
        names = [self.fresh_name() for _ in range(5)]
        head, body, _, at, _ = names
        before = self.label
        self.add(f"br label %{head}")
        self.known += known
        self.begin(head, [f"%{at} i64"])
        loop = Loop(before, *names, len(self.lines), list(self.known))
        self.add(f"br i1 {self.made(f'icmp ult i64 %{at}, 4')}, label %{body}, label %{loop.left}")
        self.begin(body, [f"%{at} i64 below 4"])
        return loop

    def leave_loop(self, loop, *phis):
        """Ends the body, and begins what comes after the loop. Its head has these phis besides its counter."""
        self.add(f"%{loop.onward} = add i64 %{loop.at}, 1")
        self.add(f"br label %{loop.head}")
        counter = f"%{loop.at} = phi i64 [ 0, %{loop.before} ], [ %{loop.onward}, %{self.label} ]"
        self.lines[loop.place:loop.place] = ["  " + line for line in (counter, *phis)]
        self.known = loop.known
        self.begin(loop.left)

    def lose_in_a_loop(self, slot, cell, _):
        """A loop writes the slot again."""
        loop = self.enter_loop(cell)
        self.write_slot(slot, cell.layout)
        self.leave_loop(loop)

    def lose_by_a_phi(self, _, cell, __):
        """A phi is the cell at first, and then another one that a loop claims."""
        phi = Ref("%" + self.fresh_name(), cell.layout, True)
        loop = self.enter_loop(cell, phi)
        new = self.claim(cell.layout)
        test, none, some = self.made(f"icmp eq {self.form.ref} {new.name}, null"), self.fresh_name(), self.fresh_name()
        self.add(f"br i1 {test}, label %{none}, label %{some}")
        self.begin(none)
        self.give_back()
        self.known = [ref._replace(nonnull=True) if ref.name == new.name else ref for ref in self.known]
        self.begin(some, [f"%{loop.at} i64 below 4"])
        self.leave_loop(loop, f"{phi.name} = phi {self.form.ref} [ {cell.name}, %{loop.before} ], [ {new.name}, %{self.label} ]")

    def write_lost(self):
        """A fresh cell is kept in a slot until it is fresh no more, and is used after that."""
        slot, cell, kept = self.keep(self.draw.choice(list(self.module.fields)))
        self.draw.choice([self.lose_on_a_way, self.lose_in_a_loop, self.lose_by_a_phi])(slot, cell, kept)
        for _ in range(self.draw.randrange(1, 3)):
            cells = [ref for ref in self.known if ref.nonnull]
            if cells:
                self.count_in(self.draw.choice(cells))
            self.draw.choice([self.follow, self.link, self.join, self.choose])()
        self.give_back()

    def text(self):
        parameters = ", ".join([f"{self.form.ref} %p{at}" for at in range(len(self.parameters))] + ["i64 %n"])
        returned = self.form.ref if self.result else "void"
        return [f'define {returned} @{self.name}({parameters}) gc "shadow-stack" {{', "entry:", *self.lines, "}"]


class Drawn:
    """A drawn module: its text, its certificate and its shapes."""

    def __init__(self, seed, form):
        self.draw, self.form = random.Random(seed), form
        names = ["A", "B", "C"][: self.draw.randrange(2, 4)]
        self.fields = {name: self.drawn_fields(names) for name in names}
        self.fields["A"] = self.fields["A"] + [self.draw.choice(names)]
        self.signatures = {}
        for at in range(self.draw.randrange(2, 8)):
            parameters = [self.draw.choice(names) for _ in range(self.draw.randrange(3))]
            result = self.draw.choice([None, *names, *names])
            self.signatures[f"f{at}"] = parameters, result, self.draw.choice(["none", "none", "may"])
        self.shapes, bodies = [], []
        for name in self.signatures:
            body = Body(self, name)
            self.draw.choice([body.write_kept, body.write_lost, body.write, body.write])()
            bodies.append(body)
        self.shapes = form.head(self) + self.shapes
        self.text = "\n".join(self.head() + [line for body in bodies for line in body.text()]) + "\n"
        self.certificate = "\n".join([f"cert {2 if self.shapes else 1}", *self.shapes] + [line for body in bodies for line in body.section + ["end"]]) + "\n"

    def drawn_fields(self, names):
        fields = ["i64"] + [self.draw.choice(["i64", *names]) for _ in range(self.draw.randrange(3))]
        self.draw.shuffle(fields)
        return fields

    def head(self):
        ref, place = self.form.ref, self.form.place
        types = [f"%{name} = type {{ {', '.join(held if held == 'i64' else self.form.held(held) for held in fields)} }}" for name, fields in self.fields.items()]
        globals_ = [f"@g{name} = global {self.form.held(name)} null" for name in self.fields]
        return types + globals_ + [f"declare {ref} @dg_alloc(i32)", "declare void @dg_safepoint()", f"declare void @llvm.gcroot({place}, {ref})",
                                   f"declare {ref} @llvm.gcread({ref}, {place})", f"declare void @llvm.gcwrite({ref}, {ref}, {place})"]


def run(*words):
    answer = subprocess.run(words, capture_output=True, text=True, timeout=600)
    return answer.returncode, answer.stdout, answer.stderr.strip()


def written(path, text):
    with open(path, "w") as out:
        out.write(text)
    return path


def missed(dgc, base, drawn):
    """What is wrong with a module, or None."""
    module, cert = written(base + ".ll", drawn.text), written(base + ".ref.cert", drawn.certificate)
    status, said, error = run(dgc, "check", module, cert)
    if status != 0:
        return f"its certificate is refused: {said.strip()} {error}"
    shapes = ["--shapes", written(base + ".shapes", "\n".join(["shapes 1", *drawn.shapes]) + "\n")] if drawn.shapes else []
    status, made, error = run(dgc, "make", module, *shapes, "--why")
    if status != 0:
        return f"none is made: {error or made.strip()}"
    status, said, error = run(dgc, "check", module, written(base + ".cert", made))
    return None if status == 0 else f"what is made is refused: {said.strip()} {error}"


def main():
    options = argparse.ArgumentParser(description=__doc__.split("\n")[0])
    options.add_argument("dgc")
    options.add_argument("--modules", type=int, default=200)
    options.add_argument("--seed", type=int, default=0)
    options.add_argument("--keep")
    options = options.parse_args()
    wrong = 0
    with tempfile.TemporaryDirectory() as folder:
        folder = options.keep or folder
        os.makedirs(folder, exist_ok=True)
        for form in (Typed(), Opaque()):
            made = 0
            for seed in range(options.seed, options.seed + options.modules):
                said = missed(options.dgc, os.path.join(folder, f"{type(form).__name__.lower()}{seed}"), Drawn(seed, form))
                if said:
                    print(f"{type(form).__name__} {seed}: {said}")
                made += not said
            print(f"{type(form).__name__}: {made} of {options.modules} made")
            wrong += options.modules - made
    sys.exit(1 if wrong else 0)


if __name__ == "__main__":
    main()
