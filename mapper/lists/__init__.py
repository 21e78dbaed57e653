"""Lists as people have them: a spreadsheet's text, its columns and their units, and the wells and nodes in it."""
