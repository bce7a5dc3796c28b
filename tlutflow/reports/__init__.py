"""Views of a mapped circuit and of a build: counts, functions as text, drawings, plots, and the report page."""
