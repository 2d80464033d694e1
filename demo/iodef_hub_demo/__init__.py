"""The demo: a hub of its own, and three readers of it side by side."""
