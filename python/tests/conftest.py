"""How Hypothesis runs: with no time limit, and in the gate with the same examples each time."""

from hypothesis import settings

settings.register_profile("here", deadline=None)
settings.register_profile("gate", deadline=None, derandomize=True, database=None)
settings.load_profile("here")
