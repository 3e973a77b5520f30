"""sdd: a replicated database that keeps a serial history without locks, as a simulator; its commands, its readers, its reference."""

__version__ = "0.1.0"
