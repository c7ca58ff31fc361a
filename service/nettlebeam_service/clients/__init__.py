"""The socket: who asks, what a request does, and how much one user may have."""
