"""Real clients of a server of rv, and real servers of a caller, over sockets of one machine."""
