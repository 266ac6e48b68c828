"""What reads the sources in Rattle: tokens, items, definitions; wrong bodies with their verdicts; checksums."""
