#!/usr/bin/env python3
"""Prints what is wrong with the pages: names in code font or as [File] that nothing here has, source files that
docs/map.md or their crate's page does not name, and tables with an empty line inside."""
import os
import re
import subprocess
import sys

os.chdir(os.path.dirname(os.path.abspath(__file__)) + "/..")
listed = subprocess.check_output(["git", "ls-files", "-co", "--exclude-standard"]).decode().split("\n")
files = [file for file in listed if os.path.isfile(file)]
faults = []


def text_of(file):
    with open(file, encoding="utf-8") as it:
        return it.read()


def stem(file):
    return os.path.basename(file).rsplit(".", 1)[0]


# All parts of paths, with and without their endings, and all words of the sources.
names = {"NAME"}
for file in files:
    names |= set(file.split("/")) | {stem(file)}
    if file.endswith((".rt", ".antt")):
        names |= set(re.findall(r"[A-Za-z_]\w*", text_of(file)))


# A file by its name, or by its folder and its name.
def is_file(name):
    return name in names if "/" not in name else any(file.endswith(f"/{name}.antt") for file in files)


def check_names(page, text):
    text = re.sub(r"```.*?```", "", text, flags=re.S)
    for code in re.findall(r"`([A-Za-z_][\w:./]+)`", text):
        for name in re.split(r"::|/", code):
            parts = [name] if name in names else name.split(".")
            if any(len(part) > 2 and part not in names for part in parts):
                faults.append(f"{page}: nothing here has the name `{code}`")
    for group in re.findall(r"\[([A-Z][\w/]+(?:, [A-Z][\w/]+)*)\](?!\()", re.sub(r"`[^`\n]*`", "", text)):
        faults.extend(f"{page}: no file is called [{name}]" for name in group.split(", ") if not is_file(name))


def check_tables(page, lines):
    for before, line, after, rule in zip(lines, lines[1:], lines[2:], lines[3:]):
        if before[:1] == "|" and line == "" and after[:1] == "|" and rule[:2] != "|-":
            faults.append(f"{page}: an empty line in a table, before {after[:60]}")


def check_sources(rows):
    for file in files:
        parts = file.split("/")
        if parts[0] != "crates" or "src" not in parts or not file.endswith(".rt"):
            continue
        row = next((row for row in rows if row.startswith(f"| {parts[1]} |")), "")
        page = f"crates/{parts[1]}/README.md"
        for where, text in ("docs/map.md", row), (page, text_of(page) if page in files else ""):
            if not text or stem(file) != "lib" and f"`{stem(file)}`" not in text:
                faults.append(f"{where}: {file} is not named")


for page in files:
    if page.endswith(".md"):
        check_names(page, text_of(page))
        check_tables(page, text_of(page).split("\n"))
check_sources(text_of("docs/map.md").split("\n"))
print("\n".join(faults))
sys.exit(1 if faults else 0)
