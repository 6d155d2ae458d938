"""Files: opened, changed on disk, unsaved, kept here, and left of earlier sessions."""
