"""What a parent does with its children: their bids, limits and prices."""
