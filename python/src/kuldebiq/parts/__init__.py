"""A sorted list in parts: files that ``pgmtool`` reads, with hints beside them, asked as one list.

`make` sorts numbers into a folder of parts, and `Parts` answers in the whole list. Both take a
client of ``dask.distributed``, whose workers then do the work, or do it in this process:

>>> import tempfile
>>> from kuldebiq import parts
>>> folder = tempfile.mkdtemp()
>>> made = parts.make([49, 4, 64, 1, 36, 9, 25, 16], folder, rows=3)
>>> print(made)
8 keys in 3 parts, with 3 lines: lines over all keys at once could be at most 2 fewer
>>> asked = parts.Parts(folder)
>>> asked.positions([9, 17]), asked.counts([4], [25]), asked.keys(2, 5), len(asked)
(array([2, 4]), array([4]), array([ 9, 16, 25], dtype=uint64), 8)

`make_points` and `PartPoints` do so with points, whose codes are the keys:

>>> made = parts.make_points([(5, 1), (2, 2), (3, 1), (0, 0), (7, 6)], tempfile.mkdtemp(), rows=2)
>>> made.box((0, 0), (5, 1)).tolist(), made.count((2, 1), (3, 3)), made.points(1, 3).tolist()
([[0, 2], [3, 4]], 2, [[3, 1], [2, 2]])

The folder is one that the client and all workers see under the same name. It holds

===================  ============================================================================
``part-00000.keys``  a key file: a count and the sorted keys of this part
``part-00000.hints`` hints of these keys, which nobody has to trust: damaged ones make no answer
                     wrong
``parts.json``       the number of the format, ε, how many coordinates points have, and for each
                     part its files, its first and last key, its count, how many keys all parts
                     before it have (its offset), how many lines its hints have, and a checksum of
                     these
===================  ============================================================================

A folder that is made a second time has files of other names, as ``part-00000-1.keys``, and goes
over to them when ``parts.json`` is renamed.
"""

from ._ask import HintsWarning, Parts
from ._make import make, make_points
from ._points import PartPoints

__all__ = ["HintsWarning", "PartPoints", "Parts", "make", "make_points"]
