"""The pictures of docs/FORMAT.md: document 01's rules, drawing, and a file for each kind of picture."""
