"""The service of a site: what stands around the program `nettlebeam`, which alone knows the queue."""
