"""Scripts and images: read, written, drawn at random, and changed in some places."""
