"""Pictures of netlists, laid out here: pieces in columns, wires in the channels between them and in the gaps of the columns.

frame.py has the words; plan.py makes frames of a netlist; flow.py, order.py, heights.py and channels.py lay one out; svg.py draws it.
"""
from .frame import Frame, Piece, Port, Wire
from .layout import lay_out
from .plan import planned
from .svg import svg

__all__ = ["Frame", "Piece", "Port", "Wire", "lay_out", "planned", "svg"]
