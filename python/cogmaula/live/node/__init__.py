"""A node: its settings, its service, its sessions and what it stores."""
