"""Writes the pages of docs/reference, and holds pages to what they speak of."""
