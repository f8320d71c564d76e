import a
if a:
    def f(): pass
    import b
@d
x = (
