"""What carries bytes and notes between terminal and host."""
