"""A run as one page of HTML: what there is as values, and the files that show them."""
