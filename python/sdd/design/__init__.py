"""Choosing a design: who waits for whom, smallest runs, catalogues from SQL."""
