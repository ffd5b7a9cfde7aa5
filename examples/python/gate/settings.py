"""The limits of each call."""
from __future__ import annotations

from dataclasses import dataclass
from functools import cached_property

from gate._library import CSettings, whole_number

RANGES = {'fuel': (0, 1_000_000_000), 'frames': (1, 4_096), 'pages': (0, 1_024)}


@dataclass(frozen=True)
class Settings:
    """The limits of each call; the defaults are those of `gate run`. A number out of its range is a `ValueError`, and one that
    is not whole a `TypeError`."""

    fuel: int = 1_000_000
    """How many functions may be entered and loops begun, up to 1,000,000,000."""
    frames: int = 1_024
    """How many functions may be entered and not yet left, 1 to 4,096."""
    pages: int = 256
    """How many pages of 65,536 bytes the memory may have, up to 1,024."""

    def __post_init__(self) -> None:
        for name, (least, greatest) in RANGES.items():
            whole_number(name, getattr(self, name), least, greatest)

    @cached_property
    def in_c(self) -> CSettings:
        """As C reads them, by many calls at once."""
        return CSettings(self.fuel, self.frames, self.pages)


DEFAULT = Settings()
