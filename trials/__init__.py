"""What the trials share. Each is started from the top of the repository: `python3 -m trials.NAME`."""
