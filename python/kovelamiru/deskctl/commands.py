"""All commands: help, page and completions are made of this table."""
from __future__ import annotations

from .arguments import Command
from .table_lists import LISTS
from .table_reading import READING
from .table_requests import REQUESTS

COMMANDS: tuple[Command, ...] = (*REQUESTS, *LISTS, *READING)
