"""The prompt of `rdbg sh`: rdbg's own lines, and words of its own that are made of them."""
