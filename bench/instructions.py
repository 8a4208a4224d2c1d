"""The counting of `scripts/measuring`, for tools that load it by this path."""
import pathlib
import runpy

globals().update(runpy.run_path(str(pathlib.Path(__file__).resolve().parents[1] / "scripts/measuring/instructions.py")))
