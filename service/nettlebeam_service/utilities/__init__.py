"""What users call: the utilities of PBS and of Slurm. Each start pays for what is imported."""
