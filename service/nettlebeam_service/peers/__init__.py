"""Other sites, which are reached by a command or by a shared folder."""
