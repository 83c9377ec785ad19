"""What `help` and `dir` show of a class: what this package says of it, and not what each tuple, number, exception and object has."""

from __future__ import annotations

from abc import ABCMeta
from enum import EnumMeta
from types import FunctionType
from typing import Any, Dict, Iterator, List, Type, TypeVar

_T = TypeVar("_T")


def _is_ours(it: Any) -> bool:
    return str(it.__module__).partition(".")[0] == __package__


def _named(kind: type) -> Iterator[str]:
    """The names of a class, and of those of this package that it is made of, that are public; or special, and have words here."""
    for each in filter(_is_ours, kind.__mro__):
        for name, value in vars(each).items():
            is_special = name.endswith("__") and isinstance(value, FunctionType) and _is_ours(value) and value.__doc__
            if is_special or not name.startswith("_"):
                yield name


class Shown(ABCMeta):
    """The metaclass of a class of which that is shown."""

    def __dir__(cls) -> List[str]:
        return sorted(set(_named(cls)))


class Choices(EnumMeta):
    """The metaclass of names of numbers: they are made of one value."""

    def __dir__(cls) -> List[str]:
        return sorted({*_named(cls), *cls.__members__})

    @property
    def __signature__(cls) -> Any:
        from inspect import Parameter, Signature
        return Signature([Parameter("value", Parameter.POSITIONAL_ONLY)])


def shown(kind: Type[_T]) -> Type[_T]:
    """A class of named tuples with that metaclass. What is said of a field is its type."""
    made: Any = Shown(kind.__name__, kind.__bases__, dict(vars(kind)))
    types: Dict[str, Any] = made.__new__.__annotations__
    for name in made._fields:
        types[name] = getattr(types[name], "__forward_arg__", types[name])
        getattr(made, name).__doc__ = str(types[name])
    return made  # type: ignore[no-any-return]
