"""Makes the wheel and the source archive of the package crsdesk; pyproject.toml says what they are.

The wheel has the shared object that the environment variable CRSDESK_LIBRARY names, or that of the repository's out/prefix,
as tools/build.py makes it; the source archive has none. Equal files make equal bytes, and nothing is left in the
sources.
"""
import gzip
import io
import os
import pathlib
import tarfile
import tempfile
from typing import Optional, Tuple

from setuptools import Distribution, setup
from setuptools.command.build_py import build_py
from setuptools.command.sdist import sdist
from wheel.bdist_wheel import bdist_wheel

HERE = pathlib.Path(__file__).resolve().parent
LIBRARY = HERE.parent / "out" / "prefix" / "lib" / "libcrsdesk.so"
# The first moment that a zip file can name.
EPOCH = os.environ.setdefault("SOURCE_DATE_EPOCH", "315532800")


class Binary(Distribution):
    def has_ext_modules(self) -> bool:
        return True


class WithLibrary(build_py):
    def run(self) -> None:
        super().run()
        library = pathlib.Path(os.environ.get("CRSDESK_LIBRARY", LIBRARY))
        if not library.is_file():
            raise SystemExit(f"crsdesk: there is no shared object {library}: tools/chosen.py tells where it is")
        self.copy_file(str(library), os.path.join(self.build_lib, "crsdesk", "libcrsdesk.so"))


class OfPlatform(bdist_wheel):
    """A wheel for any Python 3, on the system and processor that the shared object is made for."""

    def get_tag(self) -> Tuple[str, str, str]:
        return "py3", "none", super().get_tag()[2]


class Equal(sdist):
    """A source archive whose bytes depend on its files alone."""

    def make_archive(
        self,
        base_name: str,
        format: str,
        root_dir: Optional[str] = None,
        base_dir: Optional[str] = None,
        owner: Optional[str] = None,
        group: Optional[str] = None,
    ) -> str:
        def plain(info: tarfile.TarInfo) -> tarfile.TarInfo:
            info.mtime, info.uid, info.gid, info.uname, info.gname = int(EPOCH), 0, 0, "", ""
            info.mode = 0o755 if info.isdir() else 0o644
            return info

        name, made = f"{base_name}.tar.gz", io.BytesIO()
        with tarfile.open(fileobj=made, mode="w") as archive:
            for path in sorted(pathlib.Path(base_dir or "").rglob("*")):
                archive.add(path, recursive=False, filter=plain)
        with open(name, "wb") as file, gzip.GzipFile("", "wb", 9, file, int(EPOCH)) as zipped:
            zipped.write(made.getvalue())
        return name


with tempfile.TemporaryDirectory() as scratch:
    setup(
        distclass=Binary,
        cmdclass={"build_py": WithLibrary, "bdist_wheel": OfPlatform, "sdist": Equal},
        options={"build": {"build_base": scratch}, "egg_info": {"egg_base": scratch}},
    )
