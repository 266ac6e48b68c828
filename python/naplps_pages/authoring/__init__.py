"""Translates pages as people write them into the lines of `naplps list`. docs/MAKING.md teaches the form.

Nothing here spells a byte of a page, or judges what can come where: the program does, of the lines that come out.
"""
