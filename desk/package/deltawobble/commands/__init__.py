"""The subcommands, one module each: WORDS (one line of help), EXAMPLE, add(parser), run(arguments) -> exit status."""
