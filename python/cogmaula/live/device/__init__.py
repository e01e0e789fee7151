"""A device's control: what it offers, and what it is told."""
