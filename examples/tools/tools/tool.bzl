# Tools that run with an environment of their own, over one file of settings that each of them asks for.
ToolInfo = provider(fields = ["env", "settings"])

def _tool_impl(ctx):
    # Each tool registers this action. Since all are equal, they are one action with many owners, and no conflict.
    settings = ctx.actions.declare_file("settings.txt")
    ctx.actions.write(settings, "mode=release\n")
    log = ctx.actions.declare_file(ctx.label.name + ".log")
    ctx.actions.run(
        outputs = [log],
        executable = ctx.attr.command,
        inputs = [settings],
        arguments = [name + "=" + ctx.attr.env[name] for name in ctx.attr.env],
        mnemonic = "RunTool",
    )
    return [
        DefaultInfo(files = depset([log])),
        ToolInfo(env = ctx.attr.env, settings = settings),
    ]

tool = rule(
    implementation = _tool_impl,
    attrs = {
        "command": attr.string(mandatory = True),
        "env": attr.string_dict(default = {"LANG": "C"}),
    },
)
