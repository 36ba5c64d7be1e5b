"""The modules of `tools/documents`: they read pages and compare them with the sources."""
