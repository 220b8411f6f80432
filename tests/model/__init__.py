"""What the programs answer, computed from the rules alone: facts, laws and meanings, the wire, scripts and drills."""
