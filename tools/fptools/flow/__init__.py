"""How often loops go back: by marks, by counts, by tables."""
