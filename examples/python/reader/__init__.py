"""A second reader of the format of a store, written from its pages: docs/STORE.md and those that it names."""
