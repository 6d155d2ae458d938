"""Keys: what the user's terminal sends, what waits, and what each does."""
