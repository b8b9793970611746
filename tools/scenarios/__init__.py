"""Scripts of calls with the answers that the papers give them, parted by document, ruling and request."""
