"""The command `orgs`: a module a group of subcommands, over the package."""
