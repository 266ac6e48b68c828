"""What the measurements share: pages of each kind, instructions and seconds."""
