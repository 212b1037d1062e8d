"""What a run goes to: conditions and goals, whether they are so, and the ways to them."""
