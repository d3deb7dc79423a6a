"""The evidence for budgets in one folder: clauses and definitions, what is trusted, the page."""
