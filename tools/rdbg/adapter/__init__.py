"""rdbg as a debugger of an editor: the Debug Adapter Protocol over lines of rdbg."""
