"""The version, which CITATION.cff has too."""

VERSION = "1.1.0"
