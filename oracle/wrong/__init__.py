"""Wrong planners for mutants.py: each is a group, a name and edits of files of rust/."""
