"""Modules that only some calls need."""

from __future__ import annotations

import importlib
from typing import Any


def import_for(call: str, module: str) -> Any:
    """Returns a module. If it isn't installed, raises an `ImportError` that names the call and the package."""
    try:
        return importlib.import_module(module)
    except ImportError:
        package = module.split(".")[0]
        raise ImportError(f"{call} needs {package} (Debian: python3-{package})") from None
