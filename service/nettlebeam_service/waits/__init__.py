"""What jobs wait for, arrays, mail, and the listings of these."""
