"""What a server tells of itself over HTTP: its page in a browser, and its metrics."""
