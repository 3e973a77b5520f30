"""Teaching: exercises."""
