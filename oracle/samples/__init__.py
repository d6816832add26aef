"""What is stored of the answers, a module for each NAME of store.py."""
