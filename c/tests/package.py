"""What a user sees of slotmap_proved beside its calls: signatures, help, hints, metadata, and that each interpreter has a module of its
own. It needs the package as pip installs it."""

import ast
import gc
import importlib
import importlib.metadata
import inspect
import os
import pydoc
import sys
import threading

import slotmap_proved
from slotmap_proved import Side, SlotMap


def signatures():
    """Each call has a signature, and those of the module in C are those of its hints."""
    for table in SlotMap, Side:
        for name in set(dir(table)) - set(dir(object)) | {"__init__"}:
            if callable(getattr(table, name)):
                inspect.signature(getattr(table, name))
        # Python 3.9 drops the line from the text of a type that C code makes.
        assert sys.version_info < (3, 10) or str(inspect.signature(table)) == "()"
    assert str(inspect.signature(SlotMap.insert)) == "(self, value, /)" and str(inspect.signature(SlotMap().insert)) == "(value, /)"
    assert str(inspect.signature(SlotMap.get)) == "(self, /, key, default=None)"
    assert str(inspect.signature(SlotMap.pop)) == "(self, /, key, default=Ellipsis)"
    assert "insert(self, value, /)" in pydoc.plain(pydoc.render_doc(SlotMap)) and "exchange(self, key, value, /)" in pydoc.plain(pydoc.render_doc(Side))
    with open(os.path.join(os.path.dirname(slotmap_proved.__file__), "_tables.pyi"), encoding="utf-8") as file:
        hints = {one.name: one for one in ast.parse(file.read()).body if isinstance(one, ast.ClassDef)}
    for table in SlotMap, Side:
        seen = set()
        for of in hints["_Table"], hints[table.__mro__[1].__name__]:
            for call in of.body:
                shown = inspect.signature(getattr(table, call.name))
                hinted = [one.arg for one in call.args.posonlyargs + call.args.args]
                # A `get` without a default has a hint of its own, and a slot's `self` is positional only.
                assert list(shown.parameters)[: len(hinted)] == hinted or call.name.startswith("__"), (call.name, hinted, shown)
                assert call.name.startswith("__") or [one.kind for one in shown.parameters.values()][1 : len(hinted)] == [
                    inspect.Parameter.POSITIONAL_ONLY if one.arg in [it.arg for it in call.args.posonlyargs] else inspect.Parameter.POSITIONAL_OR_KEYWORD
                    for one in (call.args.posonlyargs + call.args.args)[1:]
                ], call.name
                seen.add(call.name)
        missing = {name for one in table.__mro__[1:2] for name in vars(one) if not name.startswith("__")} - seen
        assert not missing, f"no hints of {missing}"


def arguments():
    """A key and a default may have names, and a wrong call says what is wrong."""
    names = SlotMap()
    key = names.insert(1)
    assert names.get(key=key) == 1 and names.get(key, default=2) == 1 and names.get(default=2, key=5) == 2 and names.pop(5, default=None) is None
    for call in names.get, names.pop:
        for given, named in ((), {}), ((key, 1, 2), {}), ((key,), {"key": 1}), ((key, 1), {"default": 1}), ((key,), {"other": 1}), ((), {"default": 1}):
            try:
                call(*given, **named)
            except TypeError as error:
                assert call.__name__ + "()" in str(error)
            else:
                raise AssertionError((call, given, named))
    assert names.pop(key=key) == 1


IN_ANOTHER = """
import gc
from slotmap_proved import Side, SlotMap
class Named(SlotMap):
    pass
names, ages = Named(), Side()
for turn in range(200):
    keys = [names.insert([number, names]) for number in range(100)]
    for key in keys:
        ages[key] = (key, ages)
    assert list(names) == sorted(names) and [value[0] for _, value in ages.items()] == list(ages)
    for key in keys[::2]:
        assert names.pop(key)[1] is names
    names.clear()
    ages.clear()
walk = iter(names.items())
left = names.insert(names)
del names
gc.collect()
"""


def in_another(script):
    """Runs a script in an interpreter of its own: from 3.12 on one with a lock of its own."""
    try:
        import _interpreters as them
    except ImportError:
        import _xxsubinterpreters as them
    one = them.create()
    failed = them.run_string(one, script)
    them.destroy(one)
    assert failed is None, failed


def interpreters():
    names = SlotMap()
    key, kind = names.insert(1), type(iter(names))
    walk = iter(names)
    for _ in range(3):
        in_another(IN_ANOTHER)
        assert type(iter(names)) is kind and list(names.items()) == [(key, 1)]
    assert next(walk) == key
    errors = []

    def run():
        try:
            in_another(IN_ANOTHER)
        except BaseException as error:
            errors.append(error)

    workers = [threading.Thread(target=run) for _ in range(3)]
    for worker in workers:
        worker.start()
    for worker in workers:
        worker.join()
    assert errors == [] and list(names.values()) == [1], errors


def twice():
    """A second module of the same interpreter has types of its own, and the first goes on."""
    mine = {name: module for name, module in sys.modules.items() if name.split(".")[0] == "slotmap_proved"}
    names = SlotMap()
    key = names.insert(1)
    for name in mine:
        del sys.modules[name]
    other = importlib.import_module("slotmap_proved")
    assert other.SlotMap is not SlotMap and not isinstance(names, other.SlotMap)
    more = other.SlotMap()
    assert more.insert(2) == key and type(iter(more)) is not type(iter(names)) and list(more.items()) == [(key, 2)]
    sys.modules.update(mine)
    del other
    gc.collect()
    assert list(more.items()) == [(key, 2)] and list(names.items()) == [(key, 1)]
    del more
    gc.collect()


def metadata():
    """What the package says of itself is what its pyproject.toml says, which Python reads from 3.11 on."""
    said = importlib.metadata.metadata("slotmap_proved")
    assert said["Author"] and said["Version"] == slotmap_proved.__version__ and "Typing :: Typed" in said.get_all("Classifier") and said.get_all("Project-URL")
    try:
        import tomllib
    except ImportError:
        return
    with open(os.path.join(os.path.dirname(os.path.abspath(__file__)), "../python/pyproject.toml"), "rb") as file:
        project = tomllib.load(file)["project"]
    assert (said["Name"], said["Version"], said["Summary"]) == (project["name"], project["version"], project["description"])
    assert [{"name": said["Author"]}] == project["authors"] and said["Keywords"].split(",") == project["keywords"]
    assert said["Requires-Python"] == project["requires-python"] and said.get_all("Classifier") == project["classifiers"]
    assert [tuple(one.split(", ")) for one in said.get_all("Project-URL")] == list(project["urls"].items())


def main():
    for test in signatures, arguments, interpreters, twice, metadata:
        test()
    print("the package slotmap_proved: signatures, hints, interpreters and metadata: ok")


main()
