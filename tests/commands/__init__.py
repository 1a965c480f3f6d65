"""What each command of the program prints, for each input."""
