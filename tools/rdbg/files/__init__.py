"""An application's file, in either form."""
