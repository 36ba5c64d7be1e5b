"""The modules of `tools/upstream-tests`, which reads nextest's own files."""
