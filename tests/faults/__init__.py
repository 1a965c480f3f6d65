"""The program where memory is refused, devices break and the system is hostile, and over spoilt bytes of each kind."""
