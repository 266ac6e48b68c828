"""A tool for files of NAPLPS pages. Its answers are those of the program naplps, its pictures are sketches."""
TOOL = "naplps-pages"
# The endings of packs of files, in small letters.
PACKS = (".tar", ".tar.gz", ".tgz", ".zip")
# The store in the folder of a box.
STORE_OF_BOX = "box.db"
