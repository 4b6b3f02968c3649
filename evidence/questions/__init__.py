"""Questions: rows without their answers, drawn at random, by subject."""
