from . import z
