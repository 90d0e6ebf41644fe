"""The verbs of the command `clearance`, one a file."""
