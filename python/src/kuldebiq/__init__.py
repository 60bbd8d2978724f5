"""Lookups in sorted keys, an ordered map, and points, by a library whose answers are proved.

`SortedKeys` answers how many keys are below a question, as ``bisect`` and ``numpy.searchsorted``
do, in keys that stay where they lie, as in a ``numpy.memmap``:

>>> import numpy, kuldebiq
>>> keys = kuldebiq.SortedKeys(numpy.array([2, 3, 5, 7, 11, 13], dtype=numpy.uint64))
>>> keys.position(6)
3
>>> keys.positions([1, 6, 20])
array([0, 3, 6])
>>> keys.count(3, 11)
4

`Map` is a dict that is in order:

>>> prices = kuldebiq.Map({30: 3, 10: 1, 20: 2})
>>> prices[15] = 5
>>> list(prices.range(10, 20))
[(10, 1), (15, 5), (20, 2)]

`Points` have two to four coordinates each:

>>> points = kuldebiq.Points([(1, 9), (4, 4), (5, 2), (9, 1)])
>>> points.rows((4, 1), (5, 9)), points.nearest((4, 3), k=2).rows
(array([1, 2]), array([1, 2]))

Keys and values are whole numbers from 0 to 2^64 - 1. A value of a wrong type raises ``TypeError``.
Every other refusal is a `Refused`, and a ``ValueError``, ``KeyError``, ``OverflowError`` or
``MemoryError`` as well.

=================  ==============================================================================
`SortedKeys`       position, positions, count, range, hints
`Map`              a mapping with range, next, previous, count, and many updates at once
`Points`           the rows of points in a box, and of those nearest to a centre
`key_file`         a file of sorted keys, mapped
`segments`         the fewest segments whose lines are within epsilon of the keys' places
`plot`             a picture of them, with what shows that there can't be fewer
`kuldebiq.parts`   a list past one machine's memory, in parts, by ``dask.distributed``
=================  ==============================================================================
"""

from ._errors import Refused
from ._files import key_file
from ._keys import SortedKeys
from ._library import __version__
from ._map import Map
from ._plot import plot
from ._points import Points
from ._segments import segments

__all__ = [
    "Map",
    "Points",
    "Refused",
    "SortedKeys",
    "__version__",
    "key_file",
    "plot",
    "segments",
]
