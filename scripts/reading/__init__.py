"""Reads Rattle: items, exports, contracts, words, who calls what, and what was left behind."""
