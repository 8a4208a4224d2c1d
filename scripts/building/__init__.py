"""Proves, builds and runs crates by `rt`, side by side and over what was kept."""
