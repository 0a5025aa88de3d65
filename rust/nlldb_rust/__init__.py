"""Functions of Rust as texts of nlldb's language, and its answers in the lines of the Rust source.

`rustc` borrow-checks a file and dumps what it knows; the modules here read that, write a text for each body, ask `nlldb`, and say what it
answered. `docs/user/rust.md` is the page about it. Nothing here is proved: this is Python, and only tested.
"""
