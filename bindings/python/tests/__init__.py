"""The tests of the package: `python3 -m unittest` in bindings/python, with the program in CEPAGE."""
import pathlib

EXAMPLES = pathlib.Path(__file__).resolve().parents[3] / "examples"


def example(name: str) -> str:
    """A file of examples/."""
    return (EXAMPLES / name).read_text(encoding="utf-8")
