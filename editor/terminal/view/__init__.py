"""What is on the screen: windows, rows, colours, the status line."""
