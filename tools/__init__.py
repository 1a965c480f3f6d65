"""What works on this repository: the gate, the build, the checks of documents, measurements and pictures."""
