"""The nodes as the service sees them: which are up, the links to them, and the accounts that they have."""
