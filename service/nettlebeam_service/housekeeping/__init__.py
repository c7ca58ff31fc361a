"""What is done once a day and kept for long: accounting, usage, retiring, compacting."""
