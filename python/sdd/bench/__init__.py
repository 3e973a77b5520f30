"""Made workloads, and measuring."""
