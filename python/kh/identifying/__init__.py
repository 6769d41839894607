"""Whether two diagrams are of one link, and which: scripts are searched for here, and each answer is checked by the programs."""
