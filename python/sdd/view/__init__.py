"""Pages and pictures of runs and of conflict graphs."""
