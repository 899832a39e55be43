"""Tests of the package. Those in this folder need only the standard library, those in its folders also what these are named after."""
