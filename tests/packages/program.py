"""Uses the Python package and its capture library."""

import importlib.metadata

import wolfaren

print(importlib.metadata.version("wolfaren"), wolfaren.dissect(bytes([0x60] + 39 * [0])).version)
try:
    wolfaren.statistics_of("/nonexistent")
except wolfaren.CaptureOSError as error:
    print(error.strerror)
