import b
from a import c,
