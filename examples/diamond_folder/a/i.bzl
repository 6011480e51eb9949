I = provider(fields = ["n"])
def _r(ctx):
    return [I(n = [d[I].n for d in ctx.attr.deps])]
r = rule(implementation = _r, attrs = {"deps": attr.label_list()})
