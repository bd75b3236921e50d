"""What a wrong reading is: the reference with texts of its sources replaced."""
import functools
import os
import sys
import types

FOLDER = os.path.join(os.path.dirname(os.path.realpath(__file__)), "..", "reference")
# The modules of the reference, each after those that it stands on.
MODULES = "faults numbers state scan dropout fontfile charmap machine rows_stack rows_state rows_points outline answer".split()


class Reading:
    """A wrong reading: its name, the groups that have to find it, what it says, and its edits.

    An edit is a module of the reference, a text that is there once, and what takes its place."""

    def __init__(self, name, groups, text, *edits):
        self.name, self.groups, self.text = name, groups.split(), text
        self.edits = list(zip(edits[::3], edits[1::3], edits[2::3], strict=True))

    def reference(self):
        """A copy of the reference with these edits: its module `answer`. The modules that were imported stay as they are."""
        package = types.ModuleType("reference")
        package.__path__ = []
        made = {"reference": package}
        kept = {name: it for name, it in sys.modules.items() if name.partition(".")[0] == "reference"}
        sys.modules.update(made)
        try:
            for name in MODULES:
                module = made["reference." + name] = sys.modules["reference." + name] = types.ModuleType("reference." + name)
                setattr(package, name, module)
                exec(code_of(name, *((old, new) for of, old, new in self.edits if of == name)),
                     vars(module))  # pylint: disable=exec-used
        finally:
            for name in made:
                del sys.modules[name]
            sys.modules.update(kept)
        return package.answer


@functools.lru_cache(maxsize=None)
def code_of(name, *edits):
    """The code of a module with these edits."""
    path = os.path.join(FOLDER, name + ".py")
    with open(path, encoding="utf-8") as file:
        text = file.read()
    for old, new in edits:
        assert text.count(old) == 1, "%s.py has `%s` %d times" % (name, old, text.count(old))
        text = text.replace(old, new)
    return compile(text, path, "exec")
