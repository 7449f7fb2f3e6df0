"""The lists of what callers of the libraries can reach, and what they are promised."""
