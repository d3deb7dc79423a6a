"""The page that fp_report writes: its content, template, style and script."""
from fptools import require

require("jinja2")
