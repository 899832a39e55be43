"""What makes a release, and tries it."""
