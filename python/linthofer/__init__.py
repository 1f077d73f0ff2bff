"""A front end in Python to the proved programs `cm1` and `cm1lab` of Linthofer (docs/PYTHON.md).

Parallel variables, conditions, messages, the global wire, the router's studies and pictures. Nothing that the machine
does is computed here.
"""
from .field import Field
from .machine import Machine
from .messages import Message, Received
from .recording import Recording
from .refusals import Collision, Failed, Fault, NotArrived, Refused, Unavailable
from .tables import Picture, Route, Svg, Table, acts_of, expand, load_curve, plot_of

__all__ = ["Collision", "Failed", "Fault", "Field", "Machine", "Message", "NotArrived", "Picture", "Received",
           "Recording", "Refused", "Route", "Svg", "Table", "Unavailable", "acts_of", "expand", "load_curve", "plot_of"]
