"""Command bytes with what is read of them by the papers, parted by the row and the command."""
