"""A board in the browser: any variant, played and looked at by the engine's rules (docs/BOARD.md)."""
