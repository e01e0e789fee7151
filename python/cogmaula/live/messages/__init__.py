"""The messages of a market: frames, JSON and topics."""
