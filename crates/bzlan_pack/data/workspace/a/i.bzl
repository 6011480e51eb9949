I = provider(fields = ["n"])
def _r(ctx):
    return [I(n = 1)]
r = rule(implementation = _r)
