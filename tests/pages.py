"""The programs that README.md, the bindings' pages and those of docs/use show. Each stands once, in examples/: a page
names that file, shows its text, and then commands with what they print."""

import os
import re
import shutil
import subprocess

TOP = os.path.normpath(os.path.join(os.path.dirname(os.path.abspath(__file__)), ".."))


class Example:
    """What a page shows below a heading: the file it names, and its commands, each with what it prints."""

    def __init__(self, page, heading):
        with open(f"{TOP}/{page}", encoding="utf-8") as file:
            part = re.split(rf"^{re.escape(heading)}\b", file.read(), maxsplit=1, flags=re.MULTILINE)[1].split("\n#")[0]
        blocks = re.findall(r"(?:^    .*\n|^\n(?=    ))+", part, re.MULTILINE)
        text, *told = re.sub(r"^    ", "", "".join(blocks), flags=re.MULTILINE).strip("\n").split("\n$ ")
        self.page, self.text = page, text.strip() + "\n"
        self.name = re.search(r"examples/[\w.]+", part)[0]
        self.commands = [
            (command, answer and answer.strip("\n") + "\n")
            for command, _, answer in (each.partition("\n") for each in told)
        ]

    def is_file(self):
        """Whether the page shows the file as it is."""
        with open(f"{TOP}/{self.name}", encoding="utf-8") as file:
            return file.read() == self.text

    def prints(self, folder, told=None, change=lambda command: command):
        """Whether each command, run in a folder with the examples in it, prints what the page says."""
        shutil.copytree(f"{TOP}/examples", f"{folder}/examples")
        return all(self.run_one(command, folder, told or {}, change) == answer for command, answer in self.commands)

    @staticmethod
    def run_one(command, folder, told, change):
        """What a command prints; None where it fails."""
        ran = subprocess.run(
            change(command),
            shell=True,
            cwd=folder,
            env=os.environ | told,
            stdout=subprocess.PIPE,
            encoding="utf-8",
            check=False,
        )
        return ran.stdout if ran.returncode == 0 else None
