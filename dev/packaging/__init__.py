"""What is kept in dist, packed and installed."""
