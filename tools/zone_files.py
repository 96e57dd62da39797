"""Gives a test zones of its own, the files of tools/zoneinfo (version 2025b), so that its rows don't hang on the machine's database.

A test imports this before any other module of tools/. From then on the programs that it runs read these files (TZDIR), and so does
Python's zoneinfo.
"""
import os
import pathlib
import zoneinfo

FOLDER = pathlib.Path(__file__).resolve().parent / "zoneinfo"

os.environ["TZDIR"] = str(FOLDER)
zoneinfo.reset_tzpath([str(FOLDER)])
