"""desk-publish: what a desk decided, put where mirrors fetch it."""
