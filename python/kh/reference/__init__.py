"""Tables of other programs beside those of the reference. Nothing here is proved."""
