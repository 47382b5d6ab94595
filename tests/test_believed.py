"""The definitions that a reader must believe are those of specs/, outside of specs/inner/ (tools/believed.py)."""
import believed


def test_definitions() -> None:
    """Each is in the folder where it belongs, with a sentence, and each name of docs/THEOREMS.md is there."""
    found = believed.Found()
    assert found.reached and not list(found.faults())
