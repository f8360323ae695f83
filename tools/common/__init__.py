"""What the commands in Python share."""
