"""A farm as a configuration says it. What no word says has the value that docs/CONFIGURATION.md gives it."""
from __future__ import annotations

from dataclasses import dataclass
from typing import Optional, Sequence


@dataclass(frozen=True)
class ServerLine:
    """A `server` line. None stands for a word that isn't there."""

    name: str
    weight: Optional[int] = None
    maxconn: Optional[int] = None
    maxpins: Optional[int] = None
    check: bool = False
    rise: Optional[int] = None
    fall: Optional[int] = None
    backup: bool = False
    disabled: bool = False

    def text(self) -> str:
        numbers = {"weight": self.weight, "maxconn": self.maxconn, "maxpins": self.maxpins, "rise": self.rise, "fall": self.fall}
        words = [f"{word} {number}" for word, number in numbers.items() if number is not None]
        marks = {"check": self.check, "backup": self.backup, "disabled": self.disabled}
        words += [word for word, is_there in marks.items() if is_there]
        return " ".join([f"  server {self.name} 127.0.0.1:80", *words])


@dataclass(frozen=True)
class TableLine:
    """A `stick-table` line. Times are in milliseconds."""

    type: str
    size: int
    length: Optional[int] = None
    expire: Optional[int] = None
    nopurge: bool = False

    def text(self) -> str:
        words = [f"  stick-table type {self.type}"]
        words += [] if self.length is None else [f"len {self.length}"]
        words += [f"size {self.size}"]
        words += [] if self.expire is None else [f"expire {self.expire}ms"]
        words += ["nopurge"] if self.nopurge else []
        return " ".join(words)


@dataclass(frozen=True)
class Farm:
    """The backend `web`, and how many entries its journal keeps."""

    balance: Optional[str]
    allbackups: bool
    table: Optional[TableLine]
    servers: Sequence[ServerLine]
    journal: Optional[int] = None

    def text(self) -> str:
        lines = [] if self.journal is None else ["global", f"  tune.journal {self.journal}"]
        lines += ["backend web"]
        lines += [] if self.balance is None else [f"  balance {self.balance}"]
        lines += ["  option allbackups"] if self.allbackups else []
        lines += [] if self.table is None else [self.table.text()]
        lines += [server.text() for server in self.servers]
        return "\n".join([*lines, ""])
