"""The page for browsers, and what is measured."""
