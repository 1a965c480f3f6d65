"""The documents as pages for a browser."""
