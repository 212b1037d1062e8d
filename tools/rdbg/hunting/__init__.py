"""A hunt for an order of moves that comes to a goal: the search through orders is asked, and what
it finds is made again, and told."""
