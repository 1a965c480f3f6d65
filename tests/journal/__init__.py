"""Tries journals on files of the system."""
