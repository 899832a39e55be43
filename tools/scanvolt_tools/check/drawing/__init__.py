"""The pictures of docs/pictures, a module for each. They are drawn from what the sources and the documents say."""
