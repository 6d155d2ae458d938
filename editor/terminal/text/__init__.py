"""Texts as the terminal has them, and what undo keeps."""
