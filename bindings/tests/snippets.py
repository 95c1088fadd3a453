"""Runs the README's snippets in C, Python and Rust, and compares what they print with the block behind each.

    snippets.py README OUT"""
import os
import pathlib
import re
import shutil
import subprocess
import sys

readme, out = pathlib.Path(sys.argv[1]), pathlib.Path(sys.argv[2])
here = readme.parent
blocks = re.findall(r"^```(c|python|rust)\n((?:(?!```).*\n)*)```\n+```text\n((?:(?!```).*\n)*)```", readme.read_text(), re.M)
folder = out / "snippets"
folder.mkdir(exist_ok=True)


def run_c(code):
    (folder / "snippet.c").write_text(code)
    words = ["cc", "-Wall", "-Wextra", f"-I{here}/include", folder / "snippet.c", "-L", out, "-lsazhonthil", "-lsazhonthil_runtime", "-o", folder / "snippet"]
    subprocess.run(words, check=True)
    return [folder / "snippet"]


def run_python(code):
    (folder / "snippet.py").write_text(code)
    return ["python3", folder / "snippet.py"]


def run_rust(code):
    examples = here / "rust" / "examples"
    examples.mkdir(exist_ok=True)
    try:
        (examples / "snippet.rs").write_text(code)
        words = ["cargo", "build", "--offline", "-q", "--example", "snippet"]
        subprocess.run(words, cwd=here / "rust", check=True, env={**os.environ, "CARGO_TARGET_DIR": str(out / "target")})
    finally:
        shutil.rmtree(examples)
    return [out / "target" / "debug" / "examples" / "snippet"]


ran = []
for language, code, wanted in blocks:
    if language == "rust" and not shutil.which("cargo"):
        continue
    words = {"c": run_c, "python": run_python, "rust": run_rust}[language](code)
    got = subprocess.run(words, capture_output=True, text=True, check=True, env={**os.environ, "PYTHONPATH": str(here / "python")}).stdout
    if got != wanted:
        sys.exit(f"the snippet in {language} prints {got!r} and not {wanted!r}")
    ran.append(language)
print(f"snippets: {', '.join(ran)} print what the README says")
