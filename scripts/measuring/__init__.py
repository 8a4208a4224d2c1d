"""Measures instructions, time and memory for bench/run. bench/instructions.py is for others who count as this does."""
