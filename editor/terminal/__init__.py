"""The editor's terminal: samterm starts `session.edit`."""
