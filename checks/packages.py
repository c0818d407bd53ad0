"""What checks need of Debian's packages: which of these are missing, and how to install them.

A check installs nothing by itself. Where something is missing it says which packages have it, and stops with status 2. With
--install it installs them first, which only root may do.
"""

import fcntl
import os
import shutil
import subprocess
import sys
import tempfile
from pathlib import Path

from scratch import stop

SYSTEM_PYTHON = "/usr/bin/python3"
WEBSOCKETS = {"python3-websockets": "websockets"}
# The modules of Python, and the commands, that each check needs, by the packages that have them.
MODULES = {it: WEBSOCKETS for it in ("clients", "long-run", "behind-nginx")}
COMMANDS = {"browser": {"chromium": "chromium", "chromium-driver": "chromedriver", "node-typescript": "tsc"},
            "behind-nginx": {"nginx-light": "nginx", "openssl": "openssl"}}
# How much is printed of what apt-get says, in lines.
LAST_LINES = 5


def has_module(python, name):
    return subprocess.run([python, "-c", f"import {name}"], stderr=subprocess.DEVNULL, check=False).returncode == 0


def missing_packages(check):
    """The packages of which a check needs something that is not there."""
    modules, commands = MODULES.get(check, {}), COMMANDS.get(check, {})
    pythons = dict.fromkeys([sys.executable, SYSTEM_PYTHON])
    missing = [package for package, name in modules.items() if not any(has_module(it, name) for it in pythons)]
    return missing + [package for package, name in commands.items() if shutil.which(name) is None]


def said_of(packages):
    return f"{', '.join(packages)} {'is' if len(packages) == 1 else 'are'} missing"


def how_to_install(packages):
    return f"apt-get install {' '.join(packages)}"


def install(packages):
    """Installs packages as root, and returns the last that apt-get says. No two checks do so at once."""
    said = ""
    with open(Path(tempfile.gettempdir()) / f"rtdb-packages-{os.getuid()}", "w", encoding="ascii") as lock:
        fcntl.flock(lock, fcntl.LOCK_EX)
        for words in (["update"], ["-y", "install", *packages]):
            how = {"env": {**os.environ, "DEBIAN_FRONTEND": "noninteractive"}, "stdin": subprocess.DEVNULL, "errors": "replace"}
            it = subprocess.run(["apt-get", "-qq", *words], stdout=subprocess.PIPE, stderr=subprocess.STDOUT, text=True, check=False, **how)
            said = it.stdout
    return "\n".join(said.splitlines()[-LAST_LINES:])


def without_install(words):
    """The words of a command line beside --install, and whether that is among them."""
    return [it for it in words if it != "--install"], "--install" in words


def require_packages(check, installs):
    """Stops where something is missing that a check needs, once it was installed where that is allowed."""
    missing, said = missing_packages(check), ""
    if missing and installs:
        said = install(missing)
        missing = missing_packages(check)
    if missing and installs:
        stop(f"{', '.join(missing)} can't be installed:\n{said}")
    if missing:
        stop(f"Debian's {said_of(missing)}: {how_to_install(missing)}, or this check with --install, both as root")
