"""What `show` makes of pages."""
