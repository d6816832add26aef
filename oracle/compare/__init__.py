"""The proved code beside the lifted Rust; each module is called by the script of its name."""
