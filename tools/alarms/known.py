"""Values that may be missing, at places where they are there."""
from typing import Optional, TypeVar

Value = TypeVar("Value")


def known(value: Optional[Value]) -> Value:
    """A value that is there by now. It is a mistake of the code (`AssertionError`) if it isn't."""
    assert value is not None
    return value
