"""Holds the sources to the lists of tests: names, clauses and edits, requests for memory."""
