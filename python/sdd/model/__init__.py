"""The files: catalogues, workloads, reports. Each is read here, and nowhere else."""
