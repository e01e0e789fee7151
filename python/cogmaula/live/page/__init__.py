"""The page that shows a market as it lives, and metrics."""
