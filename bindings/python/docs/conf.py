"""The site of the package: see build."""
import os
import sys

sys.path.insert(0, os.path.join(os.path.dirname(os.path.abspath(__file__)), ".."))

from causal.version import VERSION  # noqa: E402

project = "causal for Python"
author = "The authors of causal"
release = version = VERSION
extensions = ["sphinx.ext.autodoc"]
html_theme = "alabaster"
html_theme_options = {"description": "Proved answers about causal diagrams", "page_width": "1060px"}
html_copy_source = False
# Docstrings name code between single backticks.
default_role = "literal"
highlight_language = "python"
add_module_names = False
autodoc_member_order = "bysource"
autodoc_typehints = "signature"
autodoc_default_options = {"members": True, "show-inheritance": False}
exclude_patterns = []
