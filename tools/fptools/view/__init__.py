"""A window of cycles as text, picture or dump, with names and marks; events of traces as they are shown."""
