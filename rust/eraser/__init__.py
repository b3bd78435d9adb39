"""Takes the contracts out of proved sources."""
