"""What makes jobs, sets and scripts, and packs them; the same for the same seed everywhere."""
