"""Long lists of links, and the database of their answers. Nothing here is proved."""
