"""What the parts of the service share: files, processes, commands, the configuration, and the messages of the socket."""
