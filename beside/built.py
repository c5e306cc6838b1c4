"""The program that the scripts try."""

import os
import subprocess
import sys


TOP = os.path.dirname(os.path.dirname(os.path.abspath(__file__)))
USAGE = 3


def made_by(script, program):
    """OAT, where it is set; else the program in its place. With no words a script makes what isn't made, and the program puts its usage."""
    if "OAT" in os.environ:
        return os.path.abspath(os.environ["OAT"])
    with subprocess.Popen([os.path.join(TOP, script)], stderr=subprocess.PIPE, text=True) as build:
        sys.stderr.writelines(line for line in build.stderr if not line.startswith("usage: "))
    if build.returncode != USAGE:
        sys.exit(f"./{script} made no program")
    return os.path.join(TOP, program)


def built_oat():
    """The proved program, which ./oat builds."""
    return made_by("oat", "crates/oat_prog/out/oat_prog")


def tried_oat():
    """The unproved program, which ./try compiles."""
    return made_by("try", ".tried/oat")
