"""What checks the checks."""
