"""Must-fail edits and their twins: what their files say, which functions they change, and how they are tried many at
once."""
