TextInfo = provider(fields = ["files"])

def _text(ctx):
    out = ctx.actions.declare_file(ctx.label.name + ".txt")
    ctx.actions.write(out, ctx.attr.line + "\n")
    files = depset([out], transitive = [d[TextInfo].files for d in ctx.attr.deps])
    return [DefaultInfo(files = depset([out])), TextInfo(files = files)]

text = rule(
    implementation = _text,
    attrs = {
        "line": attr.string(mandatory = True),
        "deps": attr.label_list(providers = [TextInfo]),
    },
)

def _page(ctx):
    out = ctx.actions.declare_file(ctx.label.name + ".html")
    files = ctx.attr.body[TextInfo].files
    ctx.actions.run(
        outputs = [out],
        executable = "make_page",
        inputs = files,
        arguments = [ctx.attr.title, out.path] + [f.path for f in files.to_list()],
        mnemonic = "MakePage",
    )
    return [DefaultInfo(files = depset([out]))]

page = rule(
    implementation = _page,
    attrs = {
        "title": attr.string(),
        "body": attr.label(mandatory = True, providers = [TextInfo]),
    },
)
