"""The generators of cases, a module for each part of the manuals. Each has `make(suite)`."""
from . import (arithmetic, asked, chars, composites, deltas, dropout, faces, flow, grammar, halts, iup, nearer, points, relative,
               rounding, scaling, scan, stack, state, vectors)

ALL = [stack, arithmetic, flow, state, vectors, rounding, points, relative, deltas, iup, scaling, composites, chars, grammar, faces,
       scan, dropout, nearer, asked, halts]
