"""The libraries of a repository: their sources, and what stands at a path of their definitions."""

import dataclasses

from . import antt, rust


@dataclasses.dataclass(frozen=True)
class Found:
    """What stands at a path: a definition, an item of the code, or None of another repository.

    It stands in a module, which has its path, by a name.
    """

    item: object
    module: tuple
    name: str


def path_of(item):
    """The path by which definitions import an item of the code."""
    crate, *modules = item.module.path
    return "Rattle", crate, "specs", "declared", *modules, item.name


class Repository:
    """The libraries of the repository in the folder `top`, each with those below it."""

    def __init__(self, top):
        self.top, self.below, self.code, self.specs = top, dict(libraries(top)), {}, {}
        for name in self.below:
            folder = self.folder(name) / "src"
            nodes = rust.nodes_of(rust.read(folder / "lib.rt"))
            self.code[name] = rust.Module(nodes, folder, (name,), None, self.code)
        self.models = dict(self.all_models())

    def folder(self, crate):
        """The folder of a crate."""
        return self.top / "crates" / crate

    def all_models(self):
        """The impls of `Model` that are written by hand, each with the identity of its type."""
        for crate in self.code.values():
            for impl in crate.all_impls():
                path, is_of_trait = rust.subject(impl)
                if is_of_trait and any(it.text == "Model" for it in impl.head):
                    yield id(impl.module.find(path)), impl

    def module(self, path):
        """The module of definitions at a path, or None where there is none."""
        if path not in self.specs:
            folder = self.folder(path[1]).joinpath(*path[2:])
            files = folder.with_name(f"{folder.name}.antt"), folder / "Lib.antt"
            texts = [rust.read(it) for it in files if it.exists()]
            made = [antt.Module(path, text, self.is_constructor) for text in texts]
            self.specs[path] = made[0] if made else None
        return self.specs[path]

    def find(self, path):
        """What stands at a path, and nothing where its module has no such name."""
        is_here = path[0] == "Rattle" and path[1] in self.code and path[2] == "specs"
        if not is_here or path[3:4] == ("contracts",):
            return [Found(None, path[:-1], path[-1])]
        if path[3:4] == ("declared",):
            return self.declared(path)
        return self.defined(path[:3], path[3:])

    def defined(self, path, rest):
        """What is defined or passed on at a path that goes on from a module."""
        module = self.module(path)
        if not module or not rest:
            return []
        found = [Found(it, path, rest[0]) for it in module.definitions.get(rest[0], ())]
        if rest[0] in module.own.modules and len(rest) > 1:
            found += self.defined((*path, rest[0]), rest[1:])
        passed = [] if found else module.passed.find(rest)
        return found + [found for it in passed for found in self.find(it.path)]

    def declared(self, path):
        """What the compiler makes of a type or a constant of the code, for definitions."""
        at, rest = self.code[path[1]], path[4:]
        for depth, name in enumerate(rest):
            behind = rest[depth + 1 :]
            if name == "TheConstants":
                continue
            found = behind and at.modules.get(name) or at.find([name])
            if isinstance(found, rust.Item):
                made = path_of(found) if behind[:-1] else path_of(found)[:-1]
                return [Found(found, (*made, *behind[:-1]), behind[-1] if behind else name)]
            if not found:
                return [Found(None, path[:-1], path[-1])] if name in at.uses else []
            at = found
        return []

    def is_constructor(self, path):
        """Whether a constructor stands at a path. In other repositories any name may be one."""
        return any(
            it.name in it.item.constructors
            if isinstance(it.item, antt.Definition)
            else it.item is None or "TheVariants" in it.module
            for it in self.find(path)
        )


def libraries(top):
    """The libraries that `crates.txt` lists, each with those below it, the lowest first."""
    below = {}
    for line in rust.read(top / "crates.txt").splitlines():
        name, colon, others = line.partition("#")[0].partition(":")
        if colon:
            below[name.split()[0]] = others.split()

    def all_below(name):
        for other in below.get(name, []):
            yield from all_below(other)
            if other in below:
                yield other

    for name in sorted(below):
        if (top / "crates" / name / "src" / "lib.rt").exists():
            yield name, list(dict.fromkeys(all_below(name)))
