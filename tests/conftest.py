"""What all tests share."""
import pytest
from program import find_program


@pytest.fixture(scope="session")
def program():
    """The path of the program to look at."""
    return find_program()
