"""Judging histories from outside, and with rules broken."""
