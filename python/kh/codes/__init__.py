"""Codes of knots and links as many programs write them: how they are read, and where they are wrong. Nothing here is proved."""
