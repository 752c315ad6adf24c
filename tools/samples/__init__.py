"""The samples: the log of document 01, the tree of RFC 6962, and what each program says of logs that they make."""
