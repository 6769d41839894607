"""Drawings, grids and pages of what `kh` answers. Nothing here is proved."""
