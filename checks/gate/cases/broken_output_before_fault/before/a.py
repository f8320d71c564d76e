import b, a
x = (
