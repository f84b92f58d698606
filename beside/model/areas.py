"""The two lent areas, in Python: where everything stands (docs/LAYOUT.md), the rule that each area
keeps, and rows in and out.

The crates `layout`, `disk` and `session` once more, function by function and, but for the loops of the rules,
under the same names; so it is no second opinion on where things stand, only on what the bytes then do. None stands for `Found::Nothing`.
Nothing is proved by it.
"""

from disk import *
from layout import *
from session import *
