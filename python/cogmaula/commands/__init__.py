"""The commands of the command line, a module each. `cli.Command` says what a module has."""
