"""What the tests, the trials and the benchmarks share."""
