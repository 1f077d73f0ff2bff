"""Machines for the tests, and numbers that are the same each time."""
import random

import pytest

from linthofer import Machine


@pytest.fixture
def four():
    """Sixteen chips, 256 processors; the grid has as many rows as columns."""
    with Machine(dims=4) as machine:
        yield machine


@pytest.fixture
def five():
    """32 chips, 512 processors; the grid has 32 rows and 16 columns."""
    with Machine(dims=5) as machine:
        yield machine


@pytest.fixture
def draw():
    """`draw(machine, below)`: a number for each processor, from 0 up."""
    generator = random.Random(7)
    return lambda machine, below: [generator.randrange(below) for _ in range(machine.size)]
