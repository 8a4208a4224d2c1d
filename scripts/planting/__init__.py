"""Plants bugs: edits of tests/mutations are read, applied, and tried by the prover or by tests."""
