"""What checks the repository for faults that a proof doesn't see, and what writes pages and pictures from the sources."""
