"""What tools/moves.py is made of: moves as text, plans as tables, plans as pictures."""
