"""Which packages are installed. The environment variable TZ_PACKAGES names those that must be."""

import importlib.util
import os


def is_installed(name):
    """Whether a package is; if not, says that what needs it is not tested."""
    if importlib.util.find_spec(name):
        return True
    assert name not in os.environ.get("TZ_PACKAGES", "").split(), f"{name} is not found"
    print(f"{name} is not installed: what needs it is not tested")
    return False
