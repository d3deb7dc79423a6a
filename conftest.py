"""The fixtures of all tests. Random tests draw the same cases in each run, however loaded the machine is."""
from hypothesis import HealthCheck, settings

from fptools.testing.common import asking, built, either, flexpret, script, tool

__all__ = ["asking", "built", "either", "flexpret", "script", "tool"]

SLOW = [HealthCheck.too_slow]
settings.register_profile(
    "same", deadline=None, derandomize=True, database=None, suppress_health_check=SLOW
)
settings.load_profile("same")
