#!/usr/bin/env python3
"""A line for each function of crates/*/src: crate::name(parameters) -> result. docs/DESIGN-PASS.md counts by it. Run it at the top."""
import glob
import re

HEAD = re.compile(r'\bfn (\w+)(?:<[^>]*>)?\(([^)]*)\)(?: -> ([^\n{]+))?')

for path in sorted(glob.glob("crates/*/src/*.rt")):
    with open(path, encoding="utf-8") as file:
        text = file.read()
    for name, parameters, result in HEAD.findall(text):
        words = " ".join(parameters.split()).rstrip(",")
        print(f"{path.split('/')[1]}::{name}({words})" + (f" -> {result.strip()}" if result else ""))
