"""Floating point on exact integers: the model behind the stored rows and checksums."""
