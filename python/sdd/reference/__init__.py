"""The system once more, for reading and for comparing: see README.md in this folder."""
