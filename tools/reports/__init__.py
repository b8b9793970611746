"""Event files with what is to be reported of each by docs/EVENTS.md, parted by what they show."""
