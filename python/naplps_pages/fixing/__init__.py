"""What `fix` does with files that are no accepted pages."""
