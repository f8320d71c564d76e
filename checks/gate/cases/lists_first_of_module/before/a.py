import a.b
from a import c
from .a import d
from a import c as e
