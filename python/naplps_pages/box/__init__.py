"""The command box: folders of files into one folder with all that is found in them."""
