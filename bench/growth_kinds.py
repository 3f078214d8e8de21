"""What the modules of growth_*.py share: the list of kinds, and pieces of texts that several of them write."""
from dataclasses import dataclass
from typing import Callable

from generate import HEAD

KINDS = []
# the words of each command, with the files in the order in which a kind writes them and the number of things, and how its output begins
WORDS = {
    "check": "check {0} {1}",
    "check, wide": "check {0} {1} --forms wide",
    "recheck": "recheck {0} {1} {2}",
    "make": "make {0}",
    "migrate": "migrate {0} {1}",
    "replay": "replay {0} {1}",
    "replay, shapes": "replay {0} {1} --shapes {2}",
    "soak": "soak {0} {1} --seeds {count} --steps 100",
    "check, explained": "check {0} {1} --explain always",
    "check, not read": "check {0} {1} --explain always",
    "check, all": "check {0} {1} --all --explain always",
    "check, each explained": "check {0} {1} --all --limit 100000 --explain always",
    "recheck, explained": "recheck {0} {1} {2} --explain always",
}
SAYS = {"check": "yes", "check, wide": "yes", "recheck": "yes", "make": "cert 1", "migrate": "cert 2", "replay": "sound", "replay, shapes": "sound", "soak": "sound",
        "check, explained": "no", "check, not read": "error L5", "check, all": "no", "check, each explained": "no", "recheck, explained": "no"}


@dataclass
class Kind:
    """A kind of thing that a text can have many of: `make` writes the texts of a command of which one has n of it."""
    name: str
    command: str
    most: int
    says: str
    make: Callable[[int], tuple]


def kind(name, most=100000, command="check", says=None):
    """Records a function of n as the kind with this name.

    The function returns the texts of the command's files, the module first, and how large they are if that is not their bytes. What
    the command prints begins with `says`.
    """
    def noted(make):
        KINDS.append(Kind(name, command, most, says or SAYS[command], make))
        return make
    return noted


def lines(count, line):
    """The text of `count` lines, each made from its number."""
    return "".join(line(i) + "\n" for i in range(count))


def function(body, section="", parameters="", mark="none", result="void", head=HEAD):
    """A module with one function @f and its certificate. The body has everything between the braces."""
    module = f'{head}define {result} @f({parameters}) gc "shadow-stack" {{\nentry:\n{body}}}\n'
    return module, f"cert 1\nfunction @f {mark}\n{section}end\n"


def references(count, name="x"):
    """`count` loads of references, each of a class of its own."""
    return lines(count, lambda i: f"  %{name}{i} = load %Node*, %Node** @g")


def numbers(count, name="v"):
    """`count` numbers, each made from the parameter %k."""
    return lines(count, lambda i: f"  %{name}{i} = add i64 %k, {i}")


def roots(count, name="s"):
    """`count` root slots, with the gcroots that name them."""
    return lines(count, lambda i: f"  %{name}{i} = alloca %Node*\n  %{name}r{i} = bitcast %Node** %{name}{i} to i8**\n"
                                  f"  call void @llvm.gcroot(i8** %{name}r{i}, i8* null)")


def safepoints(count):
    """`count` safepoints in a row."""
    return "  call void @dg_safepoint()\n" * count
