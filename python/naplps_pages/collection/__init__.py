"""Collections: folders of pages, whose answers are kept in a store, which is one SQLite file."""
