"""What comes of faults: memory refused, reads and writes that fail, damaged modules, deep and large decks."""
