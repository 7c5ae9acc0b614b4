"""Writes the feature `serde` into the package: its dependency, its impls and their test."""
import shutil

from package import HAND

DEPENDENCIES = """
[dependencies]
serde = { version = "1", default-features = false, features = ["alloc"], optional = true }

[dev-dependencies]
serde_json = "1"
"""
FEATURE = """
# `Serialize` and `Deserialize` of views, sequences and arrays.
serde = ["alloc", "dep:serde"]
"""


def write(out):
    """Adds it to a package that stands in a folder."""
    manifest, lib = out / "Cargo.toml", out / "src/lib.rs"
    head, features, rest = manifest.read_text().partition("alloc = []\n")
    manifest.write_text(head + features + FEATURE.strip("\n") + "\n" + rest + DEPENDENCIES)
    lib.write_text(lib.read_text().replace("pub mod slice;\n", '#[cfg(feature = "serde")]\nmod serialized;\npub mod slice;\n', 1))
    shutil.copy(HAND / "serde/serialized.rs", out / "src")
    (out / "tests/serde").mkdir(parents=True)
    (out / "tests/serde/main.rs").write_text('#![cfg(feature = "serde")]\n' + (HAND / "serde/test.rs").read_text())
