"""How Sphinx's autodoc reads the package: without its library and without Dask."""
extensions = ["sphinx.ext.autodoc"]
autodoc_default_options = {"members": True, "show-inheritance": True}
autodoc_mock_imports = ["crsdesk._library", "dask", "pandas"]
autodoc_type_aliases = {it: it for it in ("Level", "Self", "Text")}
autodoc_typehints_format = "short"
add_module_names = smartquotes = html_permalinks = False
templates_path = ["."]  # page.html has no navigation.


def setup(app):
    # A field of a NamedTuple is in its signature.
    app.connect("autodoc-skip-member", lambda *it: type(it[3]).__name__ == "_tuplegetter" or None)
