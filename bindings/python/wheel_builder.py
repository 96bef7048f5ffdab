"""Makes the wheel that pip installs, by Python's own modules alone, so that nothing has to be fetched. Where WAVE_LIB_DIR names a
folder, its libwave.so.0 is installed with the package."""
import base64
import hashlib
import os
import re
import sys
import sysconfig
import zipfile

HERE = os.path.dirname(os.path.abspath(__file__))
LIBRARY = "libwave.so.0"
METADATA = """Metadata-Version: 2.1
Name: wasm-wave
Version: {version}
Summary: WAVE, the text encoding of WebAssembly component values: a proved reader and writer
License: Apache-2.0 WITH LLVM-exception OR Apache-2.0 OR MIT
Requires-Python: >=3.9
Description-Content-Type: text/markdown

{readme}"""
WHEEL = """Wheel-Version: 1.0
Generator: wheel_builder
Root-Is-Purelib: {is_pure}
Tag: {tag}
"""


def read(*path):
    with open(os.path.join(*path), "rb") as file:
        return file.read()


def build_wheel(wheel_directory, config_settings=None, metadata_directory=None):
    """Makes the wheel in the folder; its name. (Of what tools ask for this is all that `pip install` needs.)"""
    package = os.path.join(HERE, "src", "wasm_wave")
    files = {f"wasm_wave/{name}": read(package, name) for name in sorted(os.listdir(package)) if name.endswith((".py", ".typed"))}
    folder = os.environ.get("WAVE_LIB_DIR")
    if folder:
        if not os.path.isabs(folder) or not os.path.isfile(os.path.join(folder, LIBRARY)):
            sys.exit(f"wasm-wave: WAVE_LIB_DIR={folder} is not the absolute path of a folder that has {LIBRARY}")
        files[f"wasm_wave/{LIBRARY}"] = read(folder, LIBRARY)
    tag = "py3-none-" + (re.sub(r"[-.]", "_", sysconfig.get_platform()) if folder else "any")
    version = re.search(rb'^__version__ = "(.*)"$', files["wasm_wave/__init__.py"], re.MULTILINE).group(1).decode()
    about = f"wasm_wave-{version}.dist-info"
    files[f"{about}/METADATA"] = METADATA.format(version=version, readme=read(HERE, "README.md").decode()).encode()
    files[f"{about}/WHEEL"] = WHEEL.format(is_pure="false" if folder else "true", tag=tag).encode()
    lines = [f"{name},sha256={digest(content)},{len(content)}\n" for name, content in files.items()]
    files[f"{about}/RECORD"] = "".join([*lines, f"{about}/RECORD,,\n"]).encode()
    wheel = f"wasm_wave-{version}-{tag}.whl"
    with zipfile.ZipFile(os.path.join(wheel_directory, wheel), "w", zipfile.ZIP_DEFLATED) as archive:
        for name, content in files.items():
            archive.writestr(name, content)
    return wheel


def digest(content):
    return base64.urlsafe_b64encode(hashlib.sha256(content).digest()).rstrip(b"=").decode()
