"""What makes and tries the files of vectors/: streams, with what any reader should answer."""
