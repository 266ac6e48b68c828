"""What the library is tried with at random: streams, lines, and a model of what each line makes."""
