"""Models of what programs answer, to which tests/random compares them."""
