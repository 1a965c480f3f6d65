"""The Debian package, tried where nothing else of rv is."""
