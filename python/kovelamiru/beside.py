"""A level's text beside the desk's level: a stamp that the desk refuses, and what it keeps."""
from __future__ import annotations

from typing import Mapping

from .brought import BROUGHT
from .words import printable


def level_lines(stamp: int, named: Mapping[str, int], present: int,
                level: Mapping[str, int]) -> list[str]:
    """What a text's stamp and names are beside the desk's, a fact a line."""
    raises = any(generation > level.get(name, 0) for name, generation in named.items())
    kept = [(name, here) for name, here in sorted(level.items()) if named.get(name, 0) < here]
    return ([BROUGHT["stamps"].format(stamp=stamp, present=present)] +
            ([BROUGHT["late"]] if raises and stamp <= present else []) +
            ([BROUGHT["keeps"]] if kept else []) +
            [BROUGHT["kept"].format(name=printable(name), here=here, there=named.get(name, "none"))
             for name, here in kept])
