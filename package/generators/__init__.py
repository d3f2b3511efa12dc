"""Generators of what stands in package/layouts.json in another form. bin/generate-layouts runs them; each module gives files
by their path from the root of the repository, and the text of each."""
