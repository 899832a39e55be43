"""The rows of the test crates: from their text to the input and output of programs, and back."""
