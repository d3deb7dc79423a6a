"""What tests and the fuzzers of dev share: fixtures, compiled programs, and independent checks."""
