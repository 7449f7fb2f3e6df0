"""What the scripts at the top of this repository share."""
