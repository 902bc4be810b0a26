"""One page that shows a sheet whole: its text, its picture, its waves, counts, the card's profile, the module of Verilog, or its refusal.

words.py joins the text with gates and nets; facts.py gathers what is shown; build.py makes the one file of them and of page.css and page.js.
"""
from .build import page

__all__ = ["page"]
