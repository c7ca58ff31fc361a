"""What users write behind a utility's name: options, numbers of resources, ranges, dates, and what a job waits for."""
