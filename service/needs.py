"""What the service needs of Debian, and the folder of the repository."""

import importlib.util
import os
import sys

TOP = os.path.dirname(os.path.dirname(os.path.abspath(__file__)))

PACKAGES = {
    "fastapi": "python3-fastapi",
    "uvicorn": "python3-uvicorn",
    "jwt": "python3-jwt",
    "cryptography": "python3-cryptography",
}


def stop_where_missing(script: str, packages: dict[str, str] = PACKAGES) -> None:
    """Ends the script with a line that names the packages of these modules that aren't here."""
    missing = [package for module, package in packages.items() if importlib.util.find_spec(module) is None]
    if missing:
        sys.exit(f"{script}: Debian's packages are needed: apt-get install {' '.join(missing)}")


def program_of_oat() -> str:
    """The file of the program, as the other scripts find it: OAT where it is set, else the one that ./oat has built, or builds."""
    sys.path.insert(0, os.path.join(TOP, "beside"))
    from built import built_oat

    return built_oat()
