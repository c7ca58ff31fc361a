"""The site's program, which alone knows the queue, and what the service keeps beside it."""
