"""An application in lines (`.fw`): read into the tree of its JSON, and written again."""
